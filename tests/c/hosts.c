/* Version 3: host agents, queues and dependencies. */
#include "common.h"

enum { HOST_ROWS_AT = 8 + 3 * 8, DEPENDENCIES_AT = HOST_ROWS_AT + 5 * ROW_BYTES + 2 };

/* Agent 0 is the host, 1 a queue, 2 a shader. The host writes; the queue makes
 * that available to the host domain, carries it to the device domain and makes
 * it visible from there; the shader reads it. Each depends on the row before. */
static const char upload[] =
    "0000007e03030500000000000000000100000000000000020000000000000000"
    "010000000000000400000001ffff0000070100000000000000000000ffff0000"
    "0b0100000000000000000000ffff00000a0100000000000000000000ffff0000"
    "000200000000000400000007000000000004"
    "00000001000100020002000300030004";

static uint8_t hosted[STRAMASHLY_TABLE_BYTES + 4];

static uint64_t check(size_t size) {
  return stramashly_check(hosted, size, 0, work, STRAMASHLY_WORK_WORDS + 1, cycle,
                          STRAMASHLY_CYCLE_NUMBERS + 1);
}

static uint64_t check_hex(const char *hex) { return check(put_hex(hosted, hex)); }

/* The upload with one byte changed. */
static uint64_t check_upload(size_t place, unsigned byte) {
  size_t size = put_hex(hosted, upload);
  hosted[place] = (uint8_t)byte;
  return check(size);
}

static void test_upload(void) {
  const uint64_t race = packed(STRAMASHLY_RACE, 0, 4, 0);
  prepare();
  expect(check_hex(upload) == packed(STRAMASHLY_RACE_FREE, 0, 0, 0), "an upload is race-free");
  expect(is_work_cleared() && is_cycle_kept(), "and leaves the buffers as any table does");
  expect(check_upload(HOST_ROWS_AT + 2 * ROW_BYTES, 12) == race, "not carried the other way");
  expect(check_upload(HOST_ROWS_AT + 3 * ROW_BYTES, 9) == race, "not seen from the host domain");
  expect(check_upload(DEPENDENCIES_AT + 1, 1) == race, "not without the write's dependency");
  expect(check_hex("0000006a03030400000000000000000100000000000000020000000000000000"
                   "010000000000000400000001ffff0000070100000000000000000000ffff0000"
                   "0a0100000000000000000000ffff000000020000000000040000000700000000"
                   "0003000000010001000200020003") == packed(STRAMASHLY_RACE, 0, 3, 0),
         "not without the domain operation");
}

static void test_orders(void) {
  const uint64_t race_free = packed(STRAMASHLY_RACE_FREE, 0, 0, 0);
  prepare();
  expect(check_hex("0000007603030500000000000000000100000000000000020000000000000000"
                   "010000000000000400000001ffff0000070100000000000000000000ffff0000"
                   "0b0100000000000000000000ffff00000a0100000000000000000000ffff0000"
                   "00020000000000040000000700000000"
                   "00020000000100030004") == race_free,
         "program order of the queue serves");
  expect(check_hex("0000005603030300000000000000000100000000000000020000000000000000"
                   "000000000000000400000001ffff00000a0100000000000000000000ffff0000"
                   "010200000000000400000007ffff000000020000000100010002") == race_free,
         "a host's read, then a shader's write");
  expect(check_hex("0000006a03030400000000000000000000000000000000020005000000000000"
                   "010000000000000400000001ffff0000080100000000000000000000ffff0000"
                   "0a0100000000000000000000ffff000000020000000000040000000700000000"
                   "0003000000010001000200020003") == race_free,
         "between shaders nothing is carried");
  expect(check_hex("0000008e03030600000000000000000100000000000000020000000000000000"
                   "010000000000000400000001ffff0000010000000000000400080001ffff0000"
                   "070100000000000000000000ffff00000b0100000000000000000000ffff0000"
                   "0a0100000000000000000000ffff000000020000000000040000000700000000"
                   "000400010002000200030003000400040005") == packed(STRAMASHLY_RACE, 0, 5, 0),
         "a dependency of the next row carries nothing");
}

/* The other entry points on the upload. */
static void test_others(void) {
  static const uint16_t steps[] = {4 * STRAMASHLY_STEP_CASE + 4, 4 * STRAMASHLY_STEP_CASE + 7,
                                   4 * STRAMASHLY_STEP_CASE + 10, 4 * STRAMASHLY_STEP_CASE + 13};
  size_t size = put_hex(hosted, upload), source = HOST_ROWS_AT + 4 * ROW_BYTES + SOURCE;
  unsigned place, right = 0;
  double share = 1.0;
  prepare();
  expect(stramashly_report(hosted, size, 0, work, STRAMASHLY_WORK_WORDS, cycle,
                           STRAMASHLY_CYCLE_NUMBERS,
                           &share) == packed(STRAMASHLY_REPORT, 0, 1, 0) &&
             share == 0.0,
         "one pair, ordered");
  expect(stramashly_derive(hosted, size, 1, 13, work, STRAMASHLY_WORK_WORDS, chain,
                           STRAMASHLY_CHAIN_NUMBERS) == packed(STRAMASHLY_DERIVATION, 1, 4, 0),
         "a chain of four dependencies");
  for (place = 0; place < 4; place++) right += chain[place] == steps[place];
  expect(right == 4, "its steps");
  expect(stramashly_accepts(hosted, size, 1, 13, 15, steps, 4) ==
             packed(STRAMASHLY_ACCEPTED, 0, 0, 0),
         "for every class set");
  hosted[source] = 0xFF;
  hosted[source + 1] = 0xFE;
  expect(stramashly_fill(hosted, size, 0, work, STRAMASHLY_WORK_WORDS, sources,
                         STRAMASHLY_SOURCE_NUMBERS) == packed(STRAMASHLY_FILLED, 5, 0, 0),
         "the read is filled");
  expect(sources[4] == 0, "with the host's write");
  expect(all_numbers(sources, 0, 4, STRAMASHLY_INITIAL), "and the other rows read nothing");
}

static void test_host_refusals(void) {
  prepare();
  expect(check_hex("0000000403000000") == refused(STRAMASHLY_REFUSAL_LENGTH, 0), "no count");
  expect(check_hex("000000050300000000") == refused(STRAMASHLY_REFUSAL_LENGTH, 0), "half a count");
  expect(check_upload(15, 3) == refused(STRAMASHLY_REFUSAL_AGENT_KIND, 0), "no such agent kind");
  expect(check_upload(DEPENDENCIES_AT - 1, 3) == refused(STRAMASHLY_REFUSAL_LENGTH, 0),
         "a dependency too many");
  expect(check_upload(DEPENDENCIES_AT + 15, 5) == refused(STRAMASHLY_REFUSAL_DEPENDENCY, 0),
         "a dependency of row 5 of 5");
  expect(check_upload(HOST_ROWS_AT, 13) == refused(STRAMASHLY_REFUSAL_CODE, 0), "kind 13");
  expect(check_upload(HOST_ROWS_AT, 7) == refused(STRAMASHLY_REFUSAL_AGENT_ROW, 0),
         "a host's operation");
  expect(check_upload(HOST_ROWS_AT + ROW_BYTES, 1) == refused(STRAMASHLY_REFUSAL_AGENT_ROW, 1),
         "a queue's write");
  expect(check_upload(HOST_ROWS_AT + 4 * ROW_BYTES, 8) == refused(STRAMASHLY_REFUSAL_AGENT_ROW, 4),
         "a shader's operation");
  expect(check_upload(HOST_ROWS_AT + ROW_BYTES + 9, 1) ==
             refused(STRAMASHLY_REFUSAL_OPERATION_FIT, 1),
         "an operation with a start");
  expect(check_upload(HOST_ROWS_AT + ROW_BYTES + SOURCE + 1, 0) ==
             refused(STRAMASHLY_REFUSAL_OPERATION_FIT, 1),
         "an operation with a source");
  expect(is_work_kept() && is_cycle_kept(), "and every buffer is kept");
  expect(check_hex("00000006030000000000") == packed(STRAMASHLY_RACE_FREE, 0, 0, 0),
         "an empty table passes");
}

void test_hosts(void) {
  test_upload();
  test_orders();
  test_others();
  test_host_refusals();
}
