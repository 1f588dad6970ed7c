/* Tables in two pieces. */
#include "common.h"

#include <string.h>

/* P's first rows as a table, and the rest of its rows. */
static uint8_t first[TABLE_BYTES];
static size_t first_len;
static const uint8_t *second;
static size_t second_len;

/* Cuts the table that a test has made; the second piece stays where it lies. */
static void cut(size_t rows) {
  first_len = ROWS_AT + rows * ROW_BYTES;
  memcpy(first, table, first_len);
  first[3] = (uint8_t)(first_len - 4);
  first[6] = (uint8_t)rows;
  second = table + first_len;
  second_len = sizeof table - first_len;
}

static uint64_t check(void) {
  return stramashly_check2(first, first_len, second, second_len, 0, work,
                           STRAMASHLY_WORK_WORDS + 1, cycle, STRAMASHLY_CYCLE_NUMBERS + 1);
}

static uint64_t fill(void) {
  return stramashly_fill2(first, first_len, second, second_len, 0, work,
                          STRAMASHLY_WORK_WORDS + 1, sources, STRAMASHLY_SOURCE_NUMBERS + 1);
}

static uint64_t row(unsigned number) {
  return stramashly_row2(first, first_len, second, second_len, (uint16_t)number);
}

/* A row as its sixteen bytes, from whichever piece holds it. */
static const uint8_t *shown(unsigned number) {
  uint64_t place = row(number);
  if (STRAMASHLY_CODE(place) != STRAMASHLY_ROW_PLACE) return NULL;
  return (STRAMASHLY_A(place) == 0 ? first : second) + STRAMASHLY_B(place);
}

static int are_rows_shown(void) {
  unsigned number;
  for (number = 0; number < 4; number++) {
    const uint8_t *bytes = shown(number);
    if (bytes == NULL || memcmp(bytes, table + ROWS_AT + number * ROW_BYTES, ROW_BYTES) != 0)
      return 0;
  }
  return row(4) == packed(STRAMASHLY_NO_ROW, 0, 0, 0) && shown(65535) == NULL;
}

static void test_every_cut(void) {
  size_t rows;
  double share;
  for (rows = 0; rows <= 4; rows++) {
    prepare();
    cut(rows);
    expect(check() == packed(STRAMASHLY_RACE_FREE, 0, 0, 0), "P in two pieces");
    expect(is_work_cleared() && is_cycle_kept(), "its buffers");
    expect(are_rows_shown(), "each row from its piece");
    prepare();
    share = 1.0;
    expect(stramashly_report2(first, first_len, second, second_len, 0, work,
                              STRAMASHLY_WORK_WORDS, cycle, STRAMASHLY_CYCLE_NUMBERS,
                              &share) == packed(STRAMASHLY_REPORT, 1, 1, 0) &&
               share == 0.0,
           "its report");
    expect(stramashly_derive2(first, first_len, second, second_len, 3, 8, work,
                              STRAMASHLY_WORK_WORDS, chain, STRAMASHLY_CHAIN_NUMBERS) ==
               packed(STRAMASHLY_DERIVATION, 1, 3, 0),
           "its derivation");
    expect(chain[0] == 1028 && chain[1] == 519 && chain[2] == 1544, "the steps");
    expect(stramashly_accepts2(first, first_len, second, second_len, 3, 8, 1, chain, 3) ==
               packed(STRAMASHLY_ACCEPTED, 0, 0, 0),
           "which the reader accepts");
    prepare();
    set_source(3, STRAMASHLY_BLANK);
    cut(rows);
    expect(check() == refused(STRAMASHLY_REFUSAL_SOURCE, 3), "a blank in a check");
    expect(fill() == packed(STRAMASHLY_FILLED, 4, 0, 0), "and in a fill");
    expect(sources[2] == 1 && sources[3] == 0 && sources[4] == ORIGINAL, "sources of both pieces");
  }
}

static void test_cycle(void) {
  prepare();
  set_source(3, STRAMASHLY_INITIAL);
  cut(2);
  expect(check() == packed(STRAMASHLY_CYCLE, 2, 0, 0), "a cycle through both pieces");
  expect(cycle[0] == 0 && cycle[1] == 3 && cycle[STRAMASHLY_CYCLE_EDGES] == 1, "its rows");
}

static void test_refusals(void) {
  static const uint8_t zeros[127 * ROW_BYTES];
  prepare();
  cut(2);
  second_len = 31;
  expect(check() == refused(STRAMASHLY_REFUSAL_ROWS, 0), "31 bytes are no rows");
  expect(fill() == refused(STRAMASHLY_REFUSAL_ROWS, 0), "of a fill too");
  expect(row(0) == packed(STRAMASHLY_NO_ROW, 0, 0, 0), "and hold none");
  first[4] = 4;
  expect(check() == refused(STRAMASHLY_REFUSAL_VERSION, 0), "the version comes before");
  cut(2);
  second = zeros;
  second_len = sizeof zeros;
  expect(check() == refused(STRAMASHLY_REFUSAL_LIMITS, 0), "129 rows");
  second_len -= ROW_BYTES;
  expect(check() == refused(STRAMASHLY_REFUSAL_EXTENT, 2), "128 rows, the third of no bytes");
  expect(STRAMASHLY_CODE(row(127)) == STRAMASHLY_ROW_PLACE, "which are there all the same");
  expect(is_work_kept() && is_cycle_kept() && are_sources_kept(), "refusals keep the buffers");
  expect(stramashly_check2(first, first_len, second, 1, 0, work, STRAMASHLY_WORK_WORDS - 1, cycle,
                           STRAMASHLY_CYCLE_NUMBERS) == refused(STRAMASHLY_REFUSAL_BUFFER, 0),
         "a short work area comes first");
}

void test_pieces(void) {
  test_every_cut();
  test_cycle();
  test_refusals();
}
