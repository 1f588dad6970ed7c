/* Tables written from values, read back, and stepped through. */
#include "common.h"

#include <string.h>

enum { ROOM = STRAMASHLY_TABLE_BYTES + 1, AGENTS = 2, ROWS = 4 };

static uint8_t out[ROOM];

/* P's two agents. */
static const uint16_t places[AGENTS * STRAMASHLY_PLACE_NUMBERS] = {0, 0, 0, 0, 0, 0, 1, 0};

static int is_kept(size_t from, size_t to) {
  for (; from < to; from++)
    if (out[from] != 0x77) return 0;
  return 1;
}

/* P's values, in a buffer of so many bytes. */
static uint64_t write_p(unsigned version, size_t room) {
  memset(out, 0x77, sizeof out);
  return stramashly_write((uint8_t)version, places, AGENTS * STRAMASHLY_PLACE_NUMBERS, table + ROWS_AT,
                          ROWS * STRAMASHLY_ROW_BYTES, NULL, 0, out, room);
}

static void test_written(void) {
  prepare();
  expect(write_p(1, ROOM) == packed(STRAMASHLY_WRITTEN, TABLE_BYTES, 0, 0), "P is written");
  expect(memcmp(out, table, TABLE_BYTES) == 0, "as the bytes of P");
  expect(is_kept(TABLE_BYTES, ROOM), "bytes after the table stay");
  expect(write_p(1, TABLE_BYTES) == packed(STRAMASHLY_WRITTEN, TABLE_BYTES, 0, 0), "a buffer of P's size");
  expect(write_p(1, TABLE_BYTES - 1) == refused(STRAMASHLY_REFUSAL_ROOM, 0), "a shorter one");
  expect(is_kept(0, ROOM), "a refusal writes nothing");
  expect(write_p(4, 0) == refused(STRAMASHLY_REFUSAL_VERSION, 0), "version 4");
  set_source(3, STRAMASHLY_BLANK);
  expect(STRAMASHLY_CODE(write_p(1, ROOM)) == STRAMASHLY_WRITTEN, "a blank is written");
  table[ROWS_AT + 2 * ROW_BYTES] = 13;
  expect(write_p(3, 0) == refused(STRAMASHLY_REFUSAL_CODE, 2), "a kind that there is not");
}

static void test_parts(void) {
  const uint16_t dependency[3] = {0, 3, 9};
  const uint16_t host[4] = {0, 0, 0, 1};
  prepare();
  expect(stramashly_write(3, places, 8, table + ROWS_AT, 64 - 1, dependency, 3, out, ROOM) ==
             refused(STRAMASHLY_REFUSAL_DEPENDENCY, 0),
         "of 63 bytes three rows count, and there is no row 3");
  expect(stramashly_write(3, places, 8 + 3, table + ROWS_AT, 64, dependency, 3, out, ROOM) ==
             packed(STRAMASHLY_WRITTEN, 8 + 16 + 64 + 2 + 4, 0, 0),
         "a rest counts for nothing");
  expect(stramashly_write(2, places, 8, table + ROWS_AT, 64, dependency, 2, out, ROOM) ==
             refused(STRAMASHLY_REFUSAL_DEPENDENCIES, 0),
         "no dependencies in version 2");
  expect(stramashly_write(2, host, 4, NULL, 0, NULL, 0, out, ROOM) == refused(STRAMASHLY_REFUSAL_AGENT_KIND, 0),
         "no host agents in version 2");
}

static uint16_t read_places[STRAMASHLY_READ_PLACES + 1];
static uint8_t read_rows[STRAMASHLY_READ_ROWS + 1];
static uint16_t read_dependencies[STRAMASHLY_READ_DEPENDENCIES + 1];

static void prepare_parts(void) {
  memset(read_places, 0x77, sizeof read_places);
  memset(read_rows, 0x77, sizeof read_rows);
  memset(read_dependencies, 0x77, sizeof read_dependencies);
}

static int are_parts_kept(size_t numbers, size_t bytes, size_t ends) {
  for (; bytes < sizeof read_rows; bytes++)
    if (read_rows[bytes] != 0x77) return 0;
  return all_numbers(read_places, numbers, STRAMASHLY_READ_PLACES + 1, 0x7777) &&
         all_numbers(read_dependencies, ends, STRAMASHLY_READ_DEPENDENCIES + 1, 0x7777);
}

/* Bytes of any size, with so many numbers, bytes and numbers too few. */
static uint64_t read_short(const uint8_t *bytes, size_t size, size_t less, size_t fewer, size_t ends) {
  return stramashly_read(bytes, size, read_places, STRAMASHLY_READ_PLACES - less, read_rows,
                         STRAMASHLY_READ_ROWS - fewer, read_dependencies,
                         STRAMASHLY_READ_DEPENDENCIES - ends);
}

/* What was read of a table of version 3, written. */
static void test_read_back(void) {
  const uint16_t dependency[2] = {0, 3};
  size_t size = 8 + 16 + 64 + 2 + 4;
  uint8_t before[8 + 16 + 64 + 2 + 4];
  uint64_t answer;
  prepare();
  prepare_parts();
  expect(stramashly_write(3, places, 8, table + ROWS_AT, 64, dependency, 2, before, size) ==
             packed(STRAMASHLY_WRITTEN, 94, 0, 0),
         "P in version 3, with a dependency");
  answer = read_short(before, size, 0, 0, 0);
  expect(answer == packed(STRAMASHLY_READ, 3 * 256 + 2, 4, 1), "is read");
  expect(STRAMASHLY_READ_VERSION(answer) == 3 && STRAMASHLY_READ_AGENTS(answer) == 2, "its version");
  expect(memcmp(read_places, places, sizeof places) == 0, "its places");
  expect(memcmp(read_rows, table + ROWS_AT, 64) == 0, "its rows");
  expect(read_dependencies[0] == 0 && read_dependencies[1] == 3, "its dependency");
  expect(are_parts_kept(8, 64, 2), "what stands after them is kept");
  memset(out, 0x77, sizeof out);
  expect(stramashly_write(3, read_places, 8, read_rows, 64, read_dependencies, 2, out, ROOM) ==
             packed(STRAMASHLY_WRITTEN, 94, 0, 0),
         "what was read is written");
  expect(memcmp(out, before, size) == 0 && is_kept(size, ROOM), "as the same bytes");
}

static void test_no_values(void) {
  const uint64_t buffer = refused(STRAMASHLY_REFUSAL_BUFFER, 0);
  prepare();
  prepare_parts();
  expect(read_short(table, sizeof table, 1, 0, 0) == buffer, "a number too few for places");
  expect(read_short(table, sizeof table, 0, 1, 0) == buffer, "a byte too few for rows");
  expect(read_short(table, 7, 0, 0, 1) == buffer, "a number too few, before the table is looked at");
  expect(read_short(table, 7, 0, 0, 0) == refused(STRAMASHLY_REFUSAL_SHORT, 0), "seven bytes");
  table[ROWS_AT + ROW_BYTES + LENGTH] = 17;
  expect(read_short(table, sizeof table, 0, 0, 0) == refused(STRAMASHLY_REFUSAL_EXTENT, 1),
         "a row of 17 bytes");
  expect(are_parts_kept(0, 0, 0), "and a refusal writes nothing");
}

static void test_steps(void) {
  uint8_t row[STRAMASHLY_ROW_BYTES + 1] = {0};
  unsigned at = 0, place;
  uint64_t answer;
  prepare();
  expect(stramashly_open(table, sizeof table) == packed(STRAMASHLY_OPENED, ROWS, AGENTS, 0), "P is opened");
  row[STRAMASHLY_ROW_BYTES] = 0x77;
  for (place = 0; place < ROWS; place++) {
    answer = stramashly_row(table, sizeof table, (uint16_t)at, row, sizeof row);
    expect(answer == packed(STRAMASHLY_ROW, place + 1, 0, 0), "a row, and the next place");
    expect(memcmp(row, table + ROWS_AT + place * ROW_BYTES, ROW_BYTES) == 0, "the row's bytes");
    at = STRAMASHLY_A(answer);
  }
  for (place = 0; place < 3; place++)
    expect(stramashly_row(table, sizeof table, (uint16_t)at, row, sizeof row) ==
               packed(STRAMASHLY_END, ROWS, 0, 0),
           "then the end at every call");
  expect(row[STRAMASHLY_ROW_BYTES] == 0x77 && memcmp(row, table + ROWS_AT + 3 * ROW_BYTES, ROW_BYTES) == 0,
         "the end leaves the buffer alone");
  expect(stramashly_row(table, sizeof table, 0, row, STRAMASHLY_ROW_BYTES - 1) ==
             refused(STRAMASHLY_REFUSAL_BUFFER, 0),
         "a buffer that is too short for a row");
}

/* Bytes that open refuses give that refusal at every place, and no byte is
 * written, however long the buffer is. */
static void expect_no_row(const uint8_t *bytes, size_t size, uint64_t refusal, const char *what) {
  uint8_t row[2 * STRAMASHLY_ROW_BYTES];
  size_t byte;
  unsigned at;
  int holds = stramashly_open(bytes, size) == refusal;
  memset(row, 0x77, sizeof row);
  for (at = 0; at <= 65535; at += at < 300 ? 1 : 1087)
    holds &= stramashly_row(bytes, size, (uint16_t)at, row, at % 2 ? sizeof row : STRAMASHLY_ROW_BYTES) == refusal;
  for (byte = 0; byte < sizeof row; byte++) holds &= row[byte] == 0x77;
  holds &= stramashly_row(bytes, size, 0, row, STRAMASHLY_ROW_BYTES - 1) ==
           refused(STRAMASHLY_REFUSAL_BUFFER, 0);
  expect(holds, what);
}

static void test_no_steps(void) {
  static const uint8_t version_nine[8] = {0, 0, 0, 0, 9, 0, 1, 0};
  static const uint8_t seven[7] = {0, 0, 0, 3, 1, 0, 5};
  expect_no_row(version_nine, sizeof version_nine, refused(STRAMASHLY_REFUSAL_VERSION, 0),
                "eight bytes of version 9 have no row");
  expect_no_row(seven, sizeof seven, refused(STRAMASHLY_REFUSAL_SHORT, 0), "nor have seven bytes");
  expect_no_row(NULL, 0, refused(STRAMASHLY_REFUSAL_SHORT, 0), "nor has nothing");
  prepare();
  table[ROWS_AT + LENGTH] = 17;
  expect_no_row(table, sizeof table, refused(STRAMASHLY_REFUSAL_EXTENT, 0),
                "nor has P with a row of 17 bytes");
  prepare();
  table[ROWS_AT + 3 * ROW_BYTES] = 7;
  expect_no_row(table, sizeof table, refused(STRAMASHLY_REFUSAL_CODE, 3),
                "nor has P with a last row that there is not");
  prepare();
  expect_no_row(table, sizeof table - 1, refused(STRAMASHLY_REFUSAL_LENGTH, 0),
                "nor has P without its last byte");
}

void test_writer(void) {
  test_written();
  test_parts();
  test_steps();
  test_no_steps();
  test_read_back();
  test_no_values();
}
