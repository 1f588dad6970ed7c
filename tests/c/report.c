/* Reports and shares. */
#include "common.h"

#include <string.h>

/* What stands in the place of the share before a call. */
static const double unwritten = 7.25;
static double share;

static uint64_t report_of(size_t size) {
  share = unwritten;
  return stramashly_report(table, size, 0, work, STRAMASHLY_WORK_WORDS + 1, cycle,
                           STRAMASHLY_CYCLE_NUMBERS + 1, &share);
}

static uint64_t report(void) { return report_of(sizeof table); }

static void test_counts(void) {
  uint64_t answer;
  prepare();
  expect(report() == packed(STRAMASHLY_REPORT, 1, 1, 0), "P: a mutual pair, an ordered one");
  expect(share == 0.0, "nothing races");
  expect(is_work_cleared(), "a report clears the work area");
  expect(is_cycle_kept(), "a report keeps the cycle buffer");
  table[ROWS_AT + 1 * ROW_BYTES + FLAGS] = 1;
  answer = report();
  expect(answer == packed(STRAMASHLY_REPORT, 1, 0, 1), "P without make available: one races");
  expect(STRAMASHLY_CONFLICTING(answer) == 2, "the counts add up");
  expect(share == 0.5, "half of them race");
}

/* A table of plain rows at one byte, the first a write of agent 0, the others
 * reads: so many of agent 0, which are ordered, and so many of agent 1. */
static size_t put_reads(unsigned ordered, unsigned racing) {
  unsigned row, rows = 1 + ordered + racing;
  memset(table, 0, sizeof table);
  table[3] = (uint8_t)(16 + ROW_BYTES * rows);
  table[4] = 1;
  table[5] = 2;
  table[6] = (uint8_t)rows;
  table[19] = 1;
  for (row = 0; row < rows; row++) {
    uint8_t *bytes = table + ROWS_AT + row * ROW_BYTES;
    bytes[0] = row == 0;
    bytes[1] = row > ordered;
    bytes[7] = 1;
    if (row == 0 || row > ordered) bytes[SOURCE] = bytes[SOURCE + 1] = 0xFF;
  }
  return ROWS_AT + rows * ROW_BYTES;
}

static void test_shares(void) {
  expect(report_of(put_reads(2, 1)) == packed(STRAMASHLY_REPORT, 0, 2, 1) && share == 1.0 / 3.0,
         "rounded once");
  expect(report_of(put_reads(0, 3)) == packed(STRAMASHLY_REPORT, 0, 0, 3) && share == 1.0,
         "every pair races");
  expect(report_of(put_reads(0, 0)) == packed(STRAMASHLY_NO_PAIRS, 0, 0, 0),
         "no conflicting pair has a code of its own");
  expect(share == unwritten, "and no share");
}

static void test_check_s_answers(void) {
  prepare();
  set_source(3, STRAMASHLY_INITIAL);
  expect(report() == packed(STRAMASHLY_CYCLE, 2, 0, 0), "an inconsistent table has its cycle");
  expect(cycle[0] == 0 && cycle[1] == 3 && cycle[STRAMASHLY_CYCLE_EDGES] == 1, "in the buffer");
  expect(share == unwritten, "and no share");
  prepare();
  set_source(3, STRAMASHLY_BLANK);
  expect(report() == refused(STRAMASHLY_REFUSAL_SOURCE, 3), "a report takes no blank");
  expect(stramashly_report(table, sizeof table, 0, work, STRAMASHLY_WORK_WORDS - 1, cycle,
                           STRAMASHLY_CYCLE_NUMBERS,
                           &share) == refused(STRAMASHLY_REFUSAL_BUFFER, 0),
         "a short work area of a report");
  expect(is_work_kept() && is_cycle_kept() && share == unwritten,
         "a refused report keeps every buffer");
}

void test_reports(void) {
  test_counts();
  test_shares();
  test_check_s_answers();
}
