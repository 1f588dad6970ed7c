/* Checks and fills. */
#include "common.h"

static uint64_t check(void) {
  return stramashly_check(table, sizeof table, 0, work, STRAMASHLY_WORK_WORDS + 1, cycle,
                          STRAMASHLY_CYCLE_NUMBERS + 1);
}

static uint64_t fill(void) {
  return stramashly_fill(table, sizeof table, 0, work, STRAMASHLY_WORK_WORDS + 1, sources,
                         STRAMASHLY_SOURCE_NUMBERS + 1);
}

static void test_race_free(void) {
  prepare();
  expect(check() == packed(STRAMASHLY_RACE_FREE, 0, 0, 0), "P is race-free");
  expect(is_work_cleared(), "race-free clears the work area");
  expect(is_cycle_kept(), "race-free keeps the cycle buffer");
}

static void test_race(void) {
  prepare();
  table[ROWS_AT + 1 * ROW_BYTES + FLAGS] = 1;
  expect(check() == packed(STRAMASHLY_RACE, 0, 3, 0), "P without make available races");
  expect(is_work_cleared(), "a race clears the work area");
  expect(is_cycle_kept(), "a race keeps the cycle buffer");
  expect(fill() == packed(STRAMASHLY_RACE, 0, 3, 0), "a fill tells the race too");
  expect(are_sources_kept(), "a race keeps the source buffer");
}

static void test_cycle(void) {
  prepare();
  set_source(3, STRAMASHLY_INITIAL);
  expect(check() == packed(STRAMASHLY_CYCLE, 2, 0, 0), "P reading the initial value is a cycle");
  expect(cycle[0] == 0 && cycle[1] == 3, "the cycle's rows");
  expect(cycle[STRAMASHLY_CYCLE_EDGES] == 1 && cycle[STRAMASHLY_CYCLE_EDGES + 1] == 4,
         "the cycle's edges");
  expect(all_numbers(cycle, 2, STRAMASHLY_CYCLE_EDGES, 0), "zeros after the rows");
  expect(all_numbers(cycle, STRAMASHLY_CYCLE_EDGES + 2, STRAMASHLY_CYCLE_NUMBERS, 0),
         "zeros after the edges");
  expect(cycle[STRAMASHLY_CYCLE_NUMBERS] == ORIGINAL, "a cycle keeps later numbers");
  expect(fill() == packed(STRAMASHLY_NONE, 0, 0, 0), "it has no consistent filling");
  expect(are_sources_kept(), "none keeps the source buffer");
}

/* Both engines of one table. */
static void test_flags(void) {
  uint64_t first, second;
  prepare();
  first = check();
  prepare();
  second = stramashly_check_by_flags(table, sizeof table, 0, work, STRAMASHLY_WORK_WORDS + 1, cycle,
                                     STRAMASHLY_CYCLE_NUMBERS + 1);
  expect(first == second, "both engines call P race-free");
  expect(is_work_cleared() && is_cycle_kept(), "the obvious one leaves the same");
  prepare();
  set_source(3, STRAMASHLY_INITIAL);
  second = stramashly_check_by_flags(table, sizeof table, 0, work, STRAMASHLY_WORK_WORDS + 1, cycle,
                                     STRAMASHLY_CYCLE_NUMBERS + 1);
  expect(second == packed(STRAMASHLY_CYCLE, 2, 0, 0), "the obvious one finds the cycle");
  expect(cycle[0] == 0 && cycle[1] == 3, "and shows its rows");
  prepare();
  table[ROWS_AT + 1 * ROW_BYTES + FLAGS] = 1;
  second = stramashly_fill_by_flags(table, sizeof table, 0, work, STRAMASHLY_WORK_WORDS + 1, sources,
                                    STRAMASHLY_SOURCE_NUMBERS + 1);
  expect(second == packed(STRAMASHLY_RACE, 0, 3, 0), "and a fill by it tells the race");
  expect(is_work_cleared() && are_sources_kept(), "and leaves what a fill leaves");
}

static void test_overwritten(void) {
  /* Two writes by one agent, and its read of the first. */
  static const uint8_t stale[] = {
      0, 0, 0, 0x3A, 1, 1, 3, 0,
      0, 0, 0, 0, 0, 0,
      1, 0, 0, 0, 0, 0, 0, 4, 0, 8, 0, 1, 0xFF, 0xFF, 0, 0,
      1, 0, 0, 0, 0, 0, 0, 2, 0, 10, 0, 1, 0xFF, 0xFF, 0, 0,
      0, 0, 0, 0, 0, 0, 0, 4, 0, 8, 0, 1, 0, 0, 0, 0};
  uint64_t answer;
  prepare();
  answer = stramashly_check(stale, sizeof stale, 0, work, STRAMASHLY_WORK_WORDS, cycle,
                            STRAMASHLY_CYCLE_NUMBERS);
  expect(STRAMASHLY_CODE(answer) == STRAMASHLY_OVERWRITTEN, "an overwritten read");
  expect(STRAMASHLY_A(answer) == 2, "its reader");
  expect(STRAMASHLY_B(answer) == 1, "its writer");
  expect(STRAMASHLY_C(answer) == 10, "its byte");
  expect(is_cycle_kept(), "overwritten keeps the cycle buffer");
}

static void test_fill(void) {
  prepare();
  set_source(3, STRAMASHLY_BLANK);
  expect(fill() == packed(STRAMASHLY_FILLED, 4, 0, 0), "P with a blank is filled");
  expect(sources[0] == 65535 && sources[1] == 65535 && sources[2] == 1 && sources[3] == 0,
         "the sources");
  expect(all_numbers(sources, 4, STRAMASHLY_SOURCE_NUMBERS + 1, ORIGINAL),
         "a fill keeps later numbers");
  expect(is_work_cleared(), "a fill clears the work area");
}

static void test_refusals(void) {
  prepare();
  set_source(3, STRAMASHLY_BLANK);
  expect(check() == refused(STRAMASHLY_REFUSAL_SOURCE, 3), "a check takes no blank");
  table[4] = 4;
  expect(check() == refused(STRAMASHLY_REFUSAL_VERSION, 0), "version 4 is refused");
  expect(fill() == refused(STRAMASHLY_REFUSAL_VERSION, 0), "by a fill too");
  expect(stramashly_check(table, 0, 0, work, STRAMASHLY_WORK_WORDS, cycle,
                          STRAMASHLY_CYCLE_NUMBERS) == refused(STRAMASHLY_REFUSAL_SHORT, 0),
         "a table of no bytes is refused");
  expect(is_work_kept() && is_cycle_kept() && are_sources_kept(), "refusals keep every buffer");
}

/* P with one byte changed, as docs/FORMAT.md has it. */
static void test_damaged(void) {
  static const struct {
    unsigned place, byte, number, row;
    const char *what;
  } changes[] = {
      {4, 0, STRAMASHLY_REFUSAL_VERSION, 0, "version 0"},
      {7, 1, STRAMASHLY_REFUSAL_VERSION, 0, "byte 7 not 0"},
      {5, 33, STRAMASHLY_REFUSAL_LIMITS, 0, "33 agents"},
      {6, 129, STRAMASHLY_REFUSAL_LIMITS, 0, "129 rows"},
      {6, 5, STRAMASHLY_REFUSAL_LENGTH, 0, "a row too many"},
      {21, 2, STRAMASHLY_REFUSAL_CODE, 0, "no such agent"},
      {20, 7, STRAMASHLY_REFUSAL_CODE, 0, "no such kind"},
      {41, 7, STRAMASHLY_REFUSAL_KIND_FIT, 1, "a release that makes visible"},
      {27, 17, STRAMASHLY_REFUSAL_EXTENT, 0, "17 bytes"},
      {61, 2, STRAMASHLY_REFUSAL_EXTENT, 2, "an atomic that isn't aligned"},
      {74, 2, STRAMASHLY_REFUSAL_CLASS, 3, "a reference of two classes"},
      {81, 2, STRAMASHLY_REFUSAL_SOURCE, 3, "a source that writes nothing"},
  };
  size_t at;
  for (at = 0; at < sizeof changes / sizeof changes[0]; at++) {
    prepare();
    table[changes[at].place] = (uint8_t)changes[at].byte;
    expect(check() == refused(changes[at].number, changes[at].row),
           changes[at].what);
    expect(is_work_kept() && is_cycle_kept(), "and every buffer is kept");
  }
}

static void test_short_buffers(void) {
  const uint64_t too_short = refused(STRAMASHLY_REFUSAL_BUFFER, 0);
  prepare();
  expect(stramashly_check(table, sizeof table, 0, work, STRAMASHLY_WORK_WORDS - 1, cycle,
                          STRAMASHLY_CYCLE_NUMBERS) == too_short,
         "a short work area");
  expect(stramashly_check(table, sizeof table, 0, work, STRAMASHLY_WORK_WORDS, cycle,
                          STRAMASHLY_CYCLE_NUMBERS - 1) == too_short,
         "a short cycle buffer");
  expect(stramashly_fill(table, sizeof table, 0, work, STRAMASHLY_WORK_WORDS - 1, sources,
                         STRAMASHLY_SOURCE_NUMBERS) == too_short,
         "a short work area of a fill");
  expect(stramashly_fill(table, sizeof table, 0, work, STRAMASHLY_WORK_WORDS, sources,
                         STRAMASHLY_SOURCE_NUMBERS - 1) == too_short,
         "a short source buffer");
  expect(is_work_kept() && is_cycle_kept() && are_sources_kept(), "refusal 11 keeps every buffer");
}

void test_check_and_fill(void) {
  test_race_free();
  test_race();
  test_cycle();
  test_flags();
  test_overwritten();
  test_fill();
  test_refusals();
  test_damaged();
  test_short_buffers();
}
