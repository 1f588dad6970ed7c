/* Calls the library from C: answers, and what the lent buffers hold. */
#include "common.h"

#include <stdio.h>
#include <string.h>

uint64_t work[STRAMASHLY_WORK_WORDS + 1];
uint16_t cycle[STRAMASHLY_CYCLE_NUMBERS + 1];
uint16_t sources[STRAMASHLY_SOURCE_NUMBERS + 1];
uint16_t chain[STRAMASHLY_CHAIN_NUMBERS + 1];

/* Table P: data written, a flag released and acquired, the data read. */
static const uint8_t table_p[TABLE_BYTES] = {
    0, 0, 0, 0x50, 1, 2, 4, 0,
    0, 0, 0, 0, 0, 0, 0, 0, 0, 0, 0, 1,
    1, 0, 0, 0, 0, 1, 0, 4, 0, 0, 0, 1, 0xFF, 0xFF, 0, 0,
    3, 0, 2, 2, 1, 3, 0, 4, 0, 4, 0, 2, 0xFF, 0xFF, 0, 1,
    2, 1, 1, 2, 1, 5, 0, 4, 0, 4, 0, 2, 0, 1, 0, 0,
    0, 1, 0, 0, 0, 1, 0, 4, 0, 0, 0, 1, 0, 0, 0, 0};

uint8_t table[TABLE_BYTES];

static int passed, failed;

void expect(int holds, const char *what) {
  if (holds) {
    passed++;
  } else {
    failed++;
    printf("failed: %s\n", what);
  }
}

uint64_t packed(unsigned code, unsigned a, unsigned b, unsigned c) {
  return (uint64_t)code << 48 | (uint64_t)a << 32 | (uint64_t)b << 16 | c;
}

uint64_t refused(unsigned number, unsigned row) {
  return packed(STRAMASHLY_REFUSED, number, row, 0);
}

static void fill_numbers(uint16_t *numbers, size_t count) {
  size_t place;
  for (place = 0; place < count; place++) numbers[place] = ORIGINAL;
}

void prepare(void) {
  size_t place;
  memcpy(table, table_p, sizeof table);
  for (place = 0; place < STRAMASHLY_WORK_WORDS + 1; place++) work[place] = ORIGINAL;
  fill_numbers(cycle, STRAMASHLY_CYCLE_NUMBERS + 1);
  fill_numbers(sources, STRAMASHLY_SOURCE_NUMBERS + 1);
  fill_numbers(chain, STRAMASHLY_CHAIN_NUMBERS + 1);
}

void set_source(int row, unsigned source) {
  table[ROWS_AT + row * ROW_BYTES + SOURCE] = (uint8_t)(source >> 8);
  table[ROWS_AT + row * ROW_BYTES + SOURCE + 1] = (uint8_t)source;
}

static unsigned digit(char letter) {
  return (unsigned)(letter <= '9' ? letter - '0' : letter - 'a' + 10);
}

size_t put_hex(uint8_t *bytes, const char *hex) {
  size_t count = strlen(hex) / 2, place;
  for (place = 0; place < count; place++)
    bytes[place] = (uint8_t)(digit(hex[2 * place]) << 4 | digit(hex[2 * place + 1]));
  return count;
}

static int all_words(size_t from, size_t to, uint64_t word) {
  for (; from < to; from++)
    if (work[from] != word) return 0;
  return 1;
}

int all_numbers(const uint16_t *numbers, size_t from, size_t to, uint16_t number) {
  for (; from < to; from++)
    if (numbers[from] != number) return 0;
  return 1;
}

int is_work_cleared(void) {
  return all_words(0, STRAMASHLY_WORK_WORDS, 0) && work[STRAMASHLY_WORK_WORDS] == ORIGINAL;
}

int is_work_kept(void) { return all_words(0, STRAMASHLY_WORK_WORDS + 1, ORIGINAL); }

int is_cycle_kept(void) { return all_numbers(cycle, 0, STRAMASHLY_CYCLE_NUMBERS + 1, ORIGINAL); }

int are_sources_kept(void) {
  return all_numbers(sources, 0, STRAMASHLY_SOURCE_NUMBERS + 1, ORIGINAL);
}

int is_chain_kept(void) { return all_numbers(chain, 0, STRAMASHLY_CHAIN_NUMBERS + 1, ORIGINAL); }

int main(void) {
  test_check_and_fill();
  test_derivations();
  test_reports();
  test_limits();
  test_versions();
  test_hosts();
  test_chains();
  test_writer();
  test_values();
  test_pieces();
  printf("%d passed, %d failed\n", passed, failed);
  return failed != 0;
}
