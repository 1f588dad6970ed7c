/* Control barriers, and counted ranks. */
#include "common.h"

#include <string.h>

/* Agent 0 writes and meets agent 1 at a control barrier; agent 1 reads. Both
 * barriers acquire and release at workgroup scope, and make available and
 * visible; their execution scope is the workgroup, their instance 9. */
static const uint8_t met[TABLE_BYTES] = {
    0, 0, 0, 0x50, 1, 2, 4, 0,
    0, 0, 0, 0, 0, 0, 0, 0, 0, 0, 0, 1,
    1, 0, 0, 0, 0, 1, 0, 4, 0, 0, 0, 1, 0xFF, 0xFF, 0, 0,
    6, 0, 3, 2, 1, 6, 2, 0, 0, 9, 0, 0, 0xFF, 0xFF, 0, 0,
    6, 1, 3, 2, 1, 6, 2, 0, 0, 9, 0, 0, 0xFF, 0xFF, 0, 0,
    0, 1, 0, 0, 0, 1, 0, 4, 0, 0, 0, 1, 0, 0, 0, 0};

/* Two atomic writes by one agent, of ranks 65535 and 0, and its read of the
 * second: the counter has started again. */
static const uint8_t wrapped[] = {
    0, 0, 0, 0x3A, 2, 1, 3, 0,
    0, 0, 0, 0, 0, 0,
    3, 0, 0, 4, 0, 1, 0, 4, 0, 0, 0, 1, 0xFF, 0xFF, 0xFF, 0xFF,
    3, 0, 0, 4, 0, 1, 0, 4, 0, 0, 0, 1, 0xFF, 0xFF, 0, 0,
    2, 0, 0, 4, 0, 1, 0, 4, 0, 0, 0, 1, 0, 1, 0, 0};

static uint8_t tried[TABLE_BYTES];

static uint64_t check(size_t size) {
  return stramashly_check(tried, size, 0, work, STRAMASHLY_WORK_WORDS, cycle,
                          STRAMASHLY_CYCLE_NUMBERS);
}

/* The table with byte `byte` of row `row` changed. */
static uint64_t check_met(unsigned row, unsigned byte, unsigned number) {
  prepare();
  memcpy(tried, met, sizeof met);
  tried[ROWS_AT + ROW_BYTES * row + byte] = (uint8_t)number;
  return check(sizeof met);
}

static void test_control_barriers(void) {
  const uint64_t race = packed(STRAMASHLY_RACE, 0, 3, 0);
  expect(check_met(0, 0, 1) == packed(STRAMASHLY_RACE_FREE, 0, 0, 0), "a control barrier orders");
  expect(check_met(1, 9, 8) == race, "not of another instance");
  expect(check_met(2, 5, 2) == race, "not without make visible");
  expect(check_met(1, 3, 1) == race, "not with a memory scope that isn't shared");
  expect(check_met(2, 6, 3) == refused(STRAMASHLY_REFUSAL_INSTANCE, 2), "another execution scope");
  expect(check_met(2, 1, 0) == refused(STRAMASHLY_REFUSAL_INSTANCE, 2), "the same agent");
  expect(check_met(1, 6, 5) == refused(STRAMASHLY_REFUSAL_CODE, 1), "execution scope 5");
  expect(check_met(1, 7, 4) == refused(STRAMASHLY_REFUSAL_KIND_FIT, 1), "a barrier of four bytes");
}

/* An instance of subgroup scope, of agents in two subgroups. */
static void test_instance_of_two(void) {
  prepare();
  memcpy(tried, met, sizeof met);
  tried[ROWS_AT + ROW_BYTES * 1 + 6] = 1;
  tried[ROWS_AT + ROW_BYTES * 2 + 6] = 1;
  expect(check(sizeof met) == refused(STRAMASHLY_REFUSAL_INSTANCE, 2), "agents outside the scope");
  tried[19] = 0;
  expect(check(sizeof met) == packed(STRAMASHLY_RACE_FREE, 0, 0, 0), "in one subgroup it passes");
}

/* Order 0: a barrier of execution only, which releases and acquires nothing. */
static void test_execution_only(void) {
  unsigned row;
  prepare();
  memcpy(tried, met, sizeof met);
  for (row = 1; row <= 2; row++) {
    uint8_t *bytes = tried + ROWS_AT + ROW_BYTES * row;
    bytes[2] = bytes[3] = bytes[4] = bytes[FLAGS] = 0;
  }
  expect(check(sizeof met) == packed(STRAMASHLY_RACE, 0, 3, 0), "execution alone orders nothing");
}

static void test_counted_ranks(void) {
  prepare();
  memcpy(tried, wrapped, sizeof wrapped);
  expect(check(sizeof wrapped) == packed(STRAMASHLY_RACE_FREE, 0, 0, 0), "0 is later than 65535");
  tried[4] = 1;
  expect(STRAMASHLY_CODE(check(sizeof wrapped)) == STRAMASHLY_CYCLE, "in version 1 it isn't");
  tried[4] = 2;
  tried[ROWS_AT - 6 + ROW_BYTES + 14] = 0x7F;
  tried[ROWS_AT - 6 + ROW_BYTES + 15] = 0xFE;
  expect(check(sizeof wrapped) == packed(STRAMASHLY_RACE_FREE, 0, 0, 0), "32767 counts on");
  tried[ROWS_AT - 6 + ROW_BYTES + 15] = 0xFF;
  expect(check(sizeof wrapped) == refused(STRAMASHLY_REFUSAL_RUN, 1), "32768 counts on");
  tried[ROWS_AT - 6 + ROW_BYTES + 14] = tried[ROWS_AT - 6 + ROW_BYTES + 15] = 0xFF;
  expect(check(sizeof wrapped) == refused(STRAMASHLY_REFUSAL_RANK, 1), "the same rank");
}

void test_versions(void) {
  test_control_barriers();
  test_instance_of_two();
  test_execution_only();
  test_counted_ranks();
}
