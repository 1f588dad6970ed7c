/* Tables at the limits: most agents, rows and dependencies, the longest cycle. */
#include "common.h"

#include <string.h>

enum { HEADER = 8, PLACE_BYTES = 6, HOST_PLACE_BYTES = 8, DEPENDENCY_BYTES = 4 };

/* Room for one agent and one row more than there may be. */
static uint8_t large[STRAMASHLY_TABLE_BYTES + PLACE_BYTES + ROW_BYTES];

static void put_number(uint8_t *at, unsigned number) {
  at[0] = (uint8_t)(number >> 8);
  at[1] = (uint8_t)number;
}

/* Agents of one workgroup, the rows all zeros; its bytes. */
static size_t start(unsigned agents, unsigned rows) {
  size_t size = HEADER + PLACE_BYTES * (size_t)agents + ROW_BYTES * (size_t)rows;
  memset(large, 0, sizeof large);
  put_number(large + 2, (unsigned)size - 4);
  large[4] = 1;
  large[5] = (uint8_t)agents;
  large[6] = (uint8_t)rows;
  return size;
}

static uint8_t *row_at(unsigned agents, unsigned row) {
  return large + HEADER + PLACE_BYTES * agents + ROW_BYTES * row;
}

/* Each row reads the initial value of a byte of its own. */
static size_t reads(unsigned agents, unsigned rows) {
  size_t size = start(agents, rows);
  unsigned row;
  for (row = 0; row < rows; row++) {
    uint8_t *bytes = row_at(agents, row);
    bytes[1] = (uint8_t)(row % agents);
    bytes[FLAGS] = 1;
    bytes[7] = 1;
    put_number(bytes + 8, row);
    put_number(bytes + 10, 1);
    put_number(bytes + SOURCE, STRAMASHLY_INITIAL);
  }
  return size;
}

/* The longest table of versions 1 and 2 in version 3's form: every agent a shader
 * agent, and so many dependencies of row 0 on itself, which order nothing. */
static size_t hosted(unsigned dependencies) {
  size_t size = reads(STRAMASHLY_AGENTS, STRAMASHLY_ROWS);
  uint8_t *places = large + HEADER;
  uint8_t *end = places + HOST_PLACE_BYTES * STRAMASHLY_AGENTS + ROW_BYTES * STRAMASHLY_ROWS;
  memmove(end - ROW_BYTES * STRAMASHLY_ROWS, large + size - ROW_BYTES * STRAMASHLY_ROWS,
          ROW_BYTES * STRAMASHLY_ROWS);
  memset(places, 0, HOST_PLACE_BYTES * STRAMASHLY_AGENTS);
  memset(end, 0, (size_t)(large + sizeof large - end));
  put_number(end, dependencies);
  size = (size_t)(end - large) + 2 + DEPENDENCY_BYTES * dependencies;
  put_number(large + 2, (unsigned)size - 4);
  large[4] = 3;
  return size;
}

/* Each row is an RMW by a reference of its own that read the row before, the
 * first row the last: sources are the only edges. */
static size_t circle(unsigned rows) {
  size_t size = start(1, rows);
  unsigned row;
  for (row = 0; row < rows; row++) {
    uint8_t *bytes = row_at(1, row);
    bytes[0] = 4;
    bytes[FLAGS] = 1;
    bytes[7] = 4;
    put_number(bytes + 10, row);
    put_number(bytes + SOURCE, (row + rows - 1) % rows);
    put_number(bytes + 14, row);
  }
  return size;
}

static uint64_t check(size_t size) {
  return stramashly_check(large, size, 0, work, STRAMASHLY_WORK_WORDS + 1, cycle,
                          STRAMASHLY_CYCLE_NUMBERS + 1);
}

static uint64_t fill(size_t size) {
  return stramashly_fill(large, size, 0, work, STRAMASHLY_WORK_WORDS + 1, sources,
                         STRAMASHLY_SOURCE_NUMBERS + 1);
}

static void test_most(void) {
  const uint64_t too_many = refused(STRAMASHLY_REFUSAL_LIMITS, 0);
  size_t size = reads(STRAMASHLY_AGENTS, STRAMASHLY_ROWS);
  prepare();
  expect(check(size) == packed(STRAMASHLY_RACE_FREE, 0, 0, 0), "128 rows of 32 agents pass");
  expect(is_work_cleared() && is_cycle_kept(), "and leave the buffers as any table does");
  expect(fill(size) == packed(STRAMASHLY_FILLED, STRAMASHLY_ROWS, 0, 0), "128 rows are filled");
  expect(all_numbers(sources, 0, STRAMASHLY_ROWS, STRAMASHLY_INITIAL), "all of the source buffer");
  expect(sources[STRAMASHLY_SOURCE_NUMBERS] == ORIGINAL, "and no more");
  prepare();
  expect(check(reads(STRAMASHLY_AGENTS, STRAMASHLY_ROWS + 1)) == too_many, "129 rows don't pass");
  expect(check(reads(STRAMASHLY_AGENTS + 1, STRAMASHLY_ROWS)) == too_many, "nor 33 agents");
  expect(fill(reads(STRAMASHLY_AGENTS + 1, 1)) == too_many, "of a fill neither");
  expect(is_work_kept() && is_cycle_kept() && are_sources_kept(), "every buffer is kept");
}

static void test_most_dependencies(void) {
  size_t size = hosted(STRAMASHLY_DEPENDENCIES);
  prepare();
  expect(size == STRAMASHLY_TABLE_BYTES, "the longest table");
  expect(check(size) == packed(STRAMASHLY_RACE_FREE, 0, 0, 0), "64 dependencies pass");
  prepare();
  size = hosted(STRAMASHLY_DEPENDENCIES + 1);
  expect(check(size) == refused(STRAMASHLY_REFUSAL_DEPENDENCIES, 0), "65 don't");
  expect(check(size - 1) == refused(STRAMASHLY_REFUSAL_LENGTH, 0), "their length comes first");
  expect(is_work_kept() && is_cycle_kept(), "every buffer is kept again");
}

static void test_longest_cycle(void) {
  unsigned place, right = 0;
  prepare();
  expect(check(circle(STRAMASHLY_ROWS)) == packed(STRAMASHLY_CYCLE, STRAMASHLY_ROWS, 0, 0),
         "a cycle of 128 rows");
  for (place = 0; place < STRAMASHLY_ROWS; place++) right += cycle[place] == place;
  expect(right == STRAMASHLY_ROWS, "its rows");
  expect(all_numbers(cycle, STRAMASHLY_CYCLE_EDGES, STRAMASHLY_CYCLE_NUMBERS, 3), "its edges");
  expect(cycle[STRAMASHLY_CYCLE_NUMBERS] == ORIGINAL, "a long cycle keeps later numbers");
}

void test_limits(void) {
  test_most();
  test_most_dependencies();
  test_longest_cycle();
}
