/* Rows as numbers: encoded, decoded, and read by the library. */
#include "common.h"

#include <string.h>

enum { AGENTS = 2, ROWS = 4 };

/* P's two agents. */
static const uint16_t places[AGENTS * STRAMASHLY_PLACE_NUMBERS] = {0, 0, 0, STRAMASHLY_AGENT_SHADER,
                                                                   0, 0, 1, STRAMASHLY_AGENT_SHADER};

/* P, row by row. */
static void make_p(struct stramashly_row rows[ROWS]) {
  const uint8_t non_private = STRAMASHLY_FLAG_NON_PRIVATE;
  unsigned at;
  for (at = 0; at < ROWS; at++) {
    rows[at] = stramashly_no_row();
    rows[at].class_or_execution = STRAMASHLY_CLASS_UNIFORM;
    rows[at].length = 4;
    rows[at].flags = non_private;
    rows[at].agent = at < 2 ? 0 : 1;
    rows[at].start = at == 1 || at == 2 ? 4 : 0;
    rows[at].reference = at == 1 || at == 2 ? 2 : 1;
  }
  rows[0].kind = STRAMASHLY_KIND_PLAIN_WRITE;
  rows[1].kind = STRAMASHLY_KIND_ATOMIC_WRITE;
  rows[1].order = STRAMASHLY_ORDER_RELEASE;
  rows[1].flags = STRAMASHLY_FLAG_NON_PRIVATE | STRAMASHLY_FLAG_MAKE_AVAILABLE;
  rows[1].rank = 1;
  rows[2].kind = STRAMASHLY_KIND_ATOMIC_READ;
  rows[2].order = STRAMASHLY_ORDER_ACQUIRE;
  rows[2].flags = STRAMASHLY_FLAG_NON_PRIVATE | STRAMASHLY_FLAG_MAKE_VISIBLE;
  rows[2].source = 1;
  for (at = 1; at <= 2; at++) {
    rows[at].scope = STRAMASHLY_SCOPE_WORKGROUP;
    rows[at].semantics = STRAMASHLY_SEMANTICS_UNIFORM;
  }
  rows[3].kind = STRAMASHLY_KIND_PLAIN_READ;
  rows[3].source = 0;
}

static void test_written_as_p(void) {
  struct stramashly_row rows[ROWS];
  uint8_t bytes[ROWS * STRAMASHLY_ROW_BYTES], out[TABLE_BYTES];
  unsigned at;
  prepare();
  make_p(rows);
  for (at = 0; at < ROWS; at++) stramashly_encode_row(&rows[at], bytes + at * STRAMASHLY_ROW_BYTES);
  expect(stramashly_write(1, places, AGENTS * STRAMASHLY_PLACE_NUMBERS, bytes, sizeof bytes, NULL, 0, out,
                          sizeof out) == packed(STRAMASHLY_WRITTEN, TABLE_BYTES, 0, 0),
         "the numbers of P are written");
  expect(memcmp(out, table, TABLE_BYTES) == 0, "as the bytes of P");
}

static void test_read_back(void) {
  struct stramashly_row expected[ROWS], row;
  uint8_t bytes[STRAMASHLY_ROW_BYTES], again[STRAMASHLY_ROW_BYTES];
  unsigned at;
  prepare();
  make_p(expected);
  for (at = 0; at < ROWS; at++) {
    expect(STRAMASHLY_CODE(stramashly_row(table, sizeof table, (uint16_t)at, bytes, sizeof bytes)) == STRAMASHLY_ROW,
           "the library gives a row");
    row = stramashly_decode_row(bytes);
    expect(row.kind == expected[at].kind && row.agent == expected[at].agent && row.order == expected[at].order &&
               row.scope == expected[at].scope && row.semantics == expected[at].semantics &&
               row.flags == expected[at].flags &&
               row.class_or_execution == expected[at].class_or_execution && row.length == expected[at].length,
           "its numbers of one byte");
    expect(row.start == expected[at].start && row.reference == expected[at].reference &&
               row.source == expected[at].source && row.rank == expected[at].rank,
           "its numbers of two bytes");
    stramashly_encode_row(&row, again);
    expect(memcmp(bytes, again, sizeof bytes) == 0, "and the same bytes again");
  }
}

/* Every byte of a row has a place of its own: none is lost or given twice. */
static void test_every_byte(void) {
  uint8_t bytes[STRAMASHLY_ROW_BYTES], again[STRAMASHLY_ROW_BYTES];
  struct stramashly_row row;
  unsigned at, value;
  int holds = 1;
  for (at = 0; at < STRAMASHLY_ROW_BYTES; at++) {
    for (value = 0; value < 256; value++) {
      memset(bytes, 0x5A, sizeof bytes);
      bytes[at] = (uint8_t)value;
      row = stramashly_decode_row(bytes);
      stramashly_encode_row(&row, again);
      holds = holds && memcmp(bytes, again, sizeof bytes) == 0;
    }
  }
  expect(holds, "all bytes come back");
}

static void test_version(void) {
  char expected[16];
  expected[0] = (char)('0' + STRAMASHLY_VERSION_MAJOR);
  expected[1] = '.';
  expected[2] = (char)('0' + STRAMASHLY_VERSION_MINOR);
  expected[3] = '.';
  expected[4] = (char)('0' + STRAMASHLY_VERSION_PATCH);
  expected[5] = 0;
  expect(strcmp(stramashly_version(), expected) == 0, "the function has the header's numbers");
  expect(strcmp(stramashly_version(), STRAMASHLY_VERSION) == 0, "and its text");
}

void test_values(void) {
  test_written_as_p();
  test_read_back();
  test_every_byte();
  test_version();
}
