/* The switch for chains. */
#include "common.h"

enum { READ_SOURCE = 8 + 3 * 6 + 5 * ROW_BYTES + SOURCE };

/* Agent 0 writes and releases to its workgroup, making available; agent 1, of
 * that workgroup, acquires, and releases to the device, making available; agent 2,
 * of another workgroup, acquires, making visible, and reads. */
static const char widened[] =
    "0000007601030600000000000000000000000001000000010000"
    "010000000001000400000001ffff0000030002020103000400040002ffff0001"
    "02010102010500040004000200010000030102040103000400080003ffff0001"
    "0202010401050004000800030003000000020000000100040000000100000000";

/* Visible from the device to another agent of the reader's workgroup, and from
 * the workgroup to the reader. */
static const char narrowed[] =
    "0000007601030600000000010000000000000001000000000000"
    "010000000001000400000001ffff0000030002040103000400040002ffff0001"
    "02010104010500040004000200010000030102020103000400080003ffff0001"
    "0202010201050004000800030003000000020000000100040000000100000000";

/* The second element is performed outside the workgroup of the first. */
static const char elsewhere[] =
    "0000007601030600000000000000000000020000000000010000"
    "010000020003000400000001ffff0000030002040101000400040002ffff0001"
    "02010104010500040004000200010000030102040103000400080003ffff0001"
    "0202010401050004000800030003000000020000000100040000000100000000";

/* The second element has the scope of the first. */
static const char level[] =
    "0000008601030700000000000000000000000001000000000002"
    "010000000001000400000001ffff0000030002020103010400040002ffff0001"
    "02010102010101040004000200010000030102020503010400080003ffff0001"
    "02020102040101040008000300030000050201020504000000000000ffff0000"
    "00020000000100040000000100000000";

static uint8_t chained[160];

static uint64_t check(const char *hex, uint8_t chains) {
  return stramashly_check(chained, put_hex(chained, hex), chains, work, STRAMASHLY_WORK_WORDS + 1,
                          cycle, STRAMASHLY_CYCLE_NUMBERS + 1);
}

static void test_check(void) {
  const uint64_t race_free = packed(STRAMASHLY_RACE_FREE, 0, 0, 0);
  const uint64_t race = packed(STRAMASHLY_RACE, 0, 5, 0);
  prepare();
  expect(check(widened, 0) == race, "off, an availability chain of two elements orders nothing");
  expect(check(widened, STRAMASHLY_CHAINS) == race_free, "on, it orders");
  expect(is_work_cleared() && is_cycle_kept(), "and leaves the buffers as ever");
  expect(check(widened, 255) == race_free, "any number but 0 is on");
  expect(check(narrowed, 0) == race, "off, a visibility chain orders nothing");
  expect(check(narrowed, STRAMASHLY_CHAINS) == race_free, "on, it orders");
  expect(check(elsewhere, STRAMASHLY_CHAINS) == race, "not out of the instance");
  expect(check(level, STRAMASHLY_CHAINS) == packed(STRAMASHLY_RACE, 0, 6, 0), "not of one scope");
}

static uint64_t fill(uint8_t chains) {
  size_t size = put_hex(chained, widened);
  chained[READ_SOURCE] = 0xFF;
  chained[READ_SOURCE + 1] = 0xFE;
  return stramashly_fill(chained, size, chains, work, STRAMASHLY_WORK_WORDS, sources,
                         STRAMASHLY_SOURCE_NUMBERS);
}

static double share;

static uint64_t report(uint8_t chains) {
  return stramashly_report(chained, put_hex(chained, widened), chains, work, STRAMASHLY_WORK_WORDS,
                           cycle, STRAMASHLY_CYCLE_NUMBERS, &share);
}

static void test_fill_and_report(void) {
  prepare();
  expect(fill(0) == packed(STRAMASHLY_RACE, 0, 5, 0), "off, a fill tells the race");
  expect(are_sources_kept(), "and keeps the source buffer");
  expect(fill(STRAMASHLY_CHAINS) == packed(STRAMASHLY_FILLED, 6, 0, 0), "on, it fills");
  expect(sources[2] == 1 && sources[4] == 3 && sources[5] == 0, "the sources");
  expect(report(0) == packed(STRAMASHLY_REPORT, 2, 0, 1) && share == 1.0 / 3.0,
         "off, one pair of three races");
  expect(report(STRAMASHLY_CHAINS) == packed(STRAMASHLY_REPORT, 2, 1, 0) && share == 0.0,
         "on, it is ordered");
}

/* P, which needs no chains, and what is refused either way. */
static void test_either_way(void) {
  unsigned chains;
  for (chains = 0; chains <= STRAMASHLY_CHAINS; chains++) {
    prepare();
    expect(stramashly_check(table, sizeof table, (uint8_t)chains, work, STRAMASHLY_WORK_WORDS,
                            cycle, STRAMASHLY_CYCLE_NUMBERS) ==
               packed(STRAMASHLY_RACE_FREE, 0, 0, 0),
           "what is ordered off is ordered on");
    set_source(3, STRAMASHLY_BLANK);
    expect(stramashly_check(table, sizeof table, (uint8_t)chains, work, STRAMASHLY_WORK_WORDS,
                            cycle, STRAMASHLY_CYCLE_NUMBERS) ==
               refused(STRAMASHLY_REFUSAL_SOURCE, 3),
           "a refusal doesn't read the switch");
  }
}

void test_chains(void) {
  test_check();
  test_fill_and_report();
  test_either_way();
}
