/* Derivations, found and read. */
#include "common.h"

/* From row 1's availability moment to row 2's visibility moment in P: to the
 * release, to the acquire that synchronizes with it, to the moment after. */
enum { AVAILABLE = 3 * 1, VISIBLE = 3 * 2 + 2, WRITE = 3 * 0 + 1, RELEASE = 3 * 1 + 1 };
static const uint16_t steps[] = {2 * STRAMASHLY_STEP_CASE + 4, 1 * STRAMASHLY_STEP_CASE + 7,
                                 3 * STRAMASHLY_STEP_CASE + 8};

static uint64_t derive(unsigned first, unsigned second) {
  return stramashly_derive(table, sizeof table, (uint16_t)first, (uint16_t)second, work,
                           STRAMASHLY_WORK_WORDS + 1, chain, STRAMASHLY_CHAIN_NUMBERS + 1);
}

static uint64_t accepts(unsigned first, unsigned second, unsigned classes, size_t count) {
  return stramashly_accepts(table, sizeof table, (uint16_t)first, (uint16_t)second,
                            (uint8_t)classes, steps, count);
}

static void test_chain(void) {
  prepare();
  expect(derive(AVAILABLE, VISIBLE) == packed(STRAMASHLY_DERIVATION, 1, 3, 0), "a chain");
  expect(chain[0] == steps[0] && chain[1] == steps[1] && chain[2] == steps[2], "its steps");
  expect(all_numbers(chain, 3, STRAMASHLY_CHAIN_NUMBERS + 1, ORIGINAL),
         "a chain keeps later numbers");
  expect(is_work_cleared(), "a chain clears the work area");
}

static void test_without_a_chain(void) {
  prepare();
  expect(derive(WRITE, RELEASE) == packed(STRAMASHLY_DERIVATION, STRAMASHLY_PROGRAM_ORDER, 0, 0),
         "program order");
  expect(is_work_cleared() && is_chain_kept(), "program order keeps the chain buffer");
  prepare();
  expect(derive(RELEASE, WRITE) == packed(STRAMASHLY_NOT_BEFORE, 0, 0, 0), "not before");
  expect(is_work_cleared() && is_chain_kept(), "not before keeps the chain buffer");
}

static void test_reader(void) {
  const uint64_t accepted = packed(STRAMASHLY_ACCEPTED, 0, 0, 0);
  const uint64_t not_accepted = packed(STRAMASHLY_NOT_ACCEPTED, 0, 0, 0);
  prepare();
  expect(accepts(AVAILABLE, VISIBLE, 1, 3) == accepted, "the chain is accepted");
  expect(accepts(AVAILABLE, VISIBLE, 2, 3) == not_accepted, "not for another class");
  expect(accepts(AVAILABLE, VISIBLE, 1, 2) == not_accepted, "not a part of it");
  expect(accepts(RELEASE, VISIBLE, 1, 3) == not_accepted, "not from another moment");
  expect(accepts(WRITE, RELEASE, STRAMASHLY_PROGRAM_ORDER, 0) == accepted, "the word is accepted");
  expect(accepts(AVAILABLE, VISIBLE, STRAMASHLY_PROGRAM_ORDER, 0) == not_accepted,
         "not between agents");
  expect(accepts(AVAILABLE, AVAILABLE, 1, 3) == refused(STRAMASHLY_REFUSAL_MOMENTS, 0),
         "a moment given twice");
}

static void test_refused_derivations(void) {
  const uint64_t short_buffer = refused(STRAMASHLY_REFUSAL_BUFFER, 0);
  prepare();
  expect(derive(AVAILABLE, 0) == refused(STRAMASHLY_REFUSAL_MOMENTS, 0), "an absent moment");
  expect(derive(65535, AVAILABLE) == refused(STRAMASHLY_REFUSAL_MOMENTS, 0), "no moment at all");
  expect(stramashly_derive(table, sizeof table, AVAILABLE, VISIBLE, work,
                           STRAMASHLY_WORK_WORDS - 1, chain,
                           STRAMASHLY_CHAIN_NUMBERS) == short_buffer,
         "a short work area of a derivation");
  expect(stramashly_derive(table, 0, AVAILABLE, 0, work, STRAMASHLY_WORK_WORDS, chain,
                           STRAMASHLY_CHAIN_NUMBERS - 1) == short_buffer,
         "a short chain buffer");
  table[4] = 4;
  expect(derive(AVAILABLE, 0) == refused(STRAMASHLY_REFUSAL_VERSION, 0),
         "a fill's refusals first");
  expect(accepts(AVAILABLE, 0, 1, 3) ==
             refused(STRAMASHLY_REFUSAL_VERSION, 0),
         "by the reader too");
  expect(is_work_kept() && is_chain_kept(), "refused derivations keep every buffer");
}

void test_derivations(void) {
  test_chain();
  test_without_a_chain();
  test_reader();
  test_refused_derivations();
}
