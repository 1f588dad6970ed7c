/* A recorder: a small simulated device runs a dispatch, notes what each invocation
 * does, and has the library judge the tables that come of it.
 *
 *   cc recorder.c $(pkg-config --cflags --libs stramashly) -o recorder
 *   ./recorder                              table 0: 31 rows, 8 agents, 0 blanks: race-free
 *   ./recorder --forget-available           table 0: 31 rows, 8 agents, 0 blanks: race ...
 *   ./recorder --workgroups 16 --seed 7     more than a table holds: several
 *   ./recorder --out FOLDER                 the tables as files, run-0.table and on
 *
 * The shader adds up numbers. Each invocation stores one in shared memory; after a
 * barrier the first invocation of a workgroup adds its workgroup's, stores the sum
 * and draws a ticket; whoever draws the last ticket adds the sums:
 *
 *   shared[i] = value;                                   OpStore          SHARED
 *   barrier();                                           OpControlBarrier
 *   if (i == 0) {
 *     for (j) sum += shared[j];                          OpLoad           SHARED
 *     partial[w] = sum;                                  OpStore          PARTIAL
 *     if (atomicAdd(ticket, 1) == workgroups - 1) {      OpAtomicIAdd     TICKET
 *       for (k) total += partial[k];                     OpLoad           PARTIAL
 *       result = total;                                  OpStore          RESULT
 *     }
 *   }
 *
 * The exit status is that of `stramashly check`: the highest of all tables. */
#include <stdio.h>
#include <stdlib.h>
#include <string.h>

#include <stramashly.h>

enum { PER_WORKGROUP = 4, MOST_WORKGROUPS = 64, MOST = PER_WORKGROUP * MOST_WORKGROUPS };

/* References: a number for each variable of the shader. */
enum { SHARED = 1, PARTIAL = 2, TICKET = 3, RESULT = 4 };

/* Where the variables lie among the 65,536 bytes that a table speaks of. A device has
 * longer addresses; a recorder numbers the lines of memory that a run touches. Each
 * workgroup's shared memory is memory of its own. */
enum { SHARED_AT = 0, PARTIAL_AT = 0x8000, TICKET_AT = 0x9000, RESULT_AT = 0x9004, MEMORY = 0x10000 };

/* ---- the recorder */

/* One table in the making. */
static struct {
  unsigned number; /* of tables so far */
  unsigned agents, rows, blanks;
  uint16_t places[STRAMASHLY_AGENTS * STRAMASHLY_PLACE_NUMBERS];
  uint8_t bytes[STRAMASHLY_ROWS * STRAMASHLY_ROW_BYTES];
  int agent_of[MOST]; /* an invocation's number as an agent of this table, -1 if it has none */
} window;

/* Which row of which table wrote a byte last; no table if none did. */
static struct {
  int table;
  uint16_t row;
} writer_of[MEMORY];

static const char *folder;
static int highest;

static void begin_table(void) {
  unsigned at;
  window.agents = window.rows = window.blanks = 0;
  for (at = 0; at < MOST; at++) window.agent_of[at] = -1;
}

static const char *judged(const uint8_t *table, size_t size) {
  static uint64_t work[STRAMASHLY_WORK_WORDS];
  static uint16_t numbers[STRAMASHLY_CYCLE_NUMBERS];
  static char text[64];
  /* With blanks only a fill will do, which tells of races as a check does. */
  uint64_t answer = window.blanks
                        ? stramashly_fill(table, size, 0, work, STRAMASHLY_WORK_WORDS, numbers, STRAMASHLY_SOURCE_NUMBERS)
                        : stramashly_check(table, size, 0, work, STRAMASHLY_WORK_WORDS, numbers, STRAMASHLY_CYCLE_NUMBERS);
  int status;
  switch (STRAMASHLY_CODE(answer)) {
  case STRAMASHLY_RACE_FREE:
    status = 0;
    strcpy(text, "race-free");
    break;
  case STRAMASHLY_FILLED:
    status = 0;
    strcpy(text, "filled");
    break;
  case STRAMASHLY_RACE:
    status = 1;
    sprintf(text, "race %u %u %u", STRAMASHLY_A(answer), STRAMASHLY_B(answer), STRAMASHLY_C(answer));
    break;
  case STRAMASHLY_REFUSED:
    status = 3;
    sprintf(text, "refused %u %u", STRAMASHLY_A(answer), STRAMASHLY_B(answer));
    break;
  default:
    status = 2;
    strcpy(text, "inconsistent");
  }
  if (status > highest) highest = status;
  return text;
}

/* Writes the table, has it judged, and begins another. */
static void end_table(void) {
  static uint8_t table[STRAMASHLY_TABLE_BYTES];
  /* Version 2: the ranks are a counter that may start again at 0. */
  uint64_t answer = stramashly_write(2, window.places, window.agents * STRAMASHLY_PLACE_NUMBERS, window.bytes,
                                     window.rows * STRAMASHLY_ROW_BYTES, NULL, 0, table, sizeof table);
  if (window.rows == 0) return;
  if (STRAMASHLY_CODE(answer) != STRAMASHLY_WRITTEN) {
    fprintf(stderr, "recorder: row %u breaks rule %u\n", STRAMASHLY_B(answer), STRAMASHLY_A(answer));
    exit(4);
  }
  if (folder) {
    char name[4096];
    FILE *file;
    snprintf(name, sizeof name, "%s/run-%u.table", folder, window.number);
    file = fopen(name, "wb");
    if (!file || fwrite(table, 1, STRAMASHLY_A(answer), file) != STRAMASHLY_A(answer) || fclose(file) != 0) {
      fprintf(stderr, "recorder: can't write %s\n", name);
      exit(4);
    }
  }
  printf("table %u: %u rows, %u agents, %u blanks: %s\n", window.number, window.rows, window.agents, window.blanks,
         judged(table, STRAMASHLY_A(answer)));
  window.number++;
  begin_table();
}

/* Begins a table unless this one has room for one row of each of these invocations. */
static void make_room(unsigned first, unsigned count) {
  unsigned at, new_agents = 0;
  for (at = first; at < first + count; at++) new_agents += window.agent_of[at] < 0;
  if (window.rows + count > STRAMASHLY_ROWS || window.agents + new_agents > STRAMASHLY_AGENTS) end_table();
}

static uint8_t agent_of(unsigned invocation) {
  if (window.agent_of[invocation] < 0) {
    uint16_t *place = window.places + window.agents * STRAMASHLY_PLACE_NUMBERS;
    place[0] = 0; /* queue family */
    place[1] = (uint16_t)(invocation / PER_WORKGROUP);
    place[2] = (uint16_t)(invocation % PER_WORKGROUP / 2); /* subgroups of two */
    place[3] = STRAMASHLY_AGENT_SHADER;
    window.agent_of[invocation] = (int)window.agents++;
  }
  return (uint8_t)window.agent_of[invocation];
}

/* What a read has read: the row that wrote the bytes last. One of an earlier table can't
 * be named: a plain read leaves it blank, an atomic says that it read the initial value.
 * Every access here is of four bytes that are written together. */
static uint16_t source_of(uint16_t start, int is_plain) {
  if (writer_of[start].table < 0) return STRAMASHLY_INITIAL;
  if (writer_of[start].table == (int)window.number) return writer_of[start].row;
  if (!is_plain) return STRAMASHLY_INITIAL;
  window.blanks++;
  return STRAMASHLY_BLANK;
}

/* Adds a row, which the table has room for, and notes what it wrote. */
static void add(struct stramashly_row row) {
  unsigned at;
  stramashly_encode_row(&row, window.bytes + window.rows * STRAMASHLY_ROW_BYTES);
  if (row.kind == STRAMASHLY_KIND_PLAIN_WRITE || row.kind == STRAMASHLY_KIND_READ_MODIFY_WRITE) {
    for (at = row.start; at < (unsigned)row.start + row.length; at++) {
      writer_of[at].table = (int)window.number;
      writer_of[at].row = (uint16_t)window.rows;
    }
  }
  window.rows++;
}

/* An access of four bytes, with all that rows of every kind have in common. */
static struct stramashly_row access_of(unsigned invocation, uint8_t kind, uint16_t reference, unsigned start) {
  struct stramashly_row row = stramashly_no_row();
  row.kind = kind;
  row.agent = agent_of(invocation);
  row.flags = STRAMASHLY_FLAG_NON_PRIVATE; /* NonPrivatePointer */
  row.class_or_execution = reference == SHARED ? STRAMASHLY_CLASS_WORKGROUP : STRAMASHLY_CLASS_UNIFORM;
  row.length = 4;
  row.start = (uint16_t)start;
  row.reference = reference;
  return row;
}

/* OpStore and OpLoad with the memory operand NonPrivatePointer. */
static void record_store(unsigned invocation, uint16_t reference, unsigned start) {
  make_room(invocation, 1);
  add(access_of(invocation, STRAMASHLY_KIND_PLAIN_WRITE, reference, start));
}

static void record_load(unsigned invocation, uint16_t reference, unsigned start) {
  struct stramashly_row row;
  make_room(invocation, 1);
  row = access_of(invocation, STRAMASHLY_KIND_PLAIN_READ, reference, start);
  row.source = source_of(row.start, 1);
  add(row);
}

/* What the shader forgets, so that there is something to find. */
static int forgets_available, forgets_barrier, is_relaxed;

/* OpAtomicIAdd Device, AcquireRelease | UniformMemory | MakeAvailable | MakeVisible. The
 * rank is a counter of the location's writes. */
static void record_add(unsigned invocation, uint16_t reference, unsigned start, uint16_t rank) {
  struct stramashly_row row;
  make_room(invocation, 1);
  row = access_of(invocation, STRAMASHLY_KIND_READ_MODIFY_WRITE, reference, start);
  row.scope = STRAMASHLY_SCOPE_DEVICE;
  if (!is_relaxed) {
    row.order = STRAMASHLY_ORDER_ACQUIRE_RELEASE;
    row.semantics = STRAMASHLY_SEMANTICS_UNIFORM;
    row.flags |= STRAMASHLY_FLAG_MAKE_VISIBLE;
    if (!forgets_available) row.flags |= STRAMASHLY_FLAG_MAKE_AVAILABLE;
  }
  row.source = source_of(row.start, 0);
  row.rank = rank;
  add(row);
}

/* OpControlBarrier Workgroup Workgroup, AcquireRelease | WorkgroupMemory | MakeAvailable |
 * MakeVisible: the rows of all that meet, when the last one has come, so that no table
 * ends among them. */
static void record_barrier(unsigned workgroup) {
  unsigned at, first = workgroup * PER_WORKGROUP;
  make_room(first, PER_WORKGROUP);
  for (at = first; at < first + PER_WORKGROUP; at++) {
    struct stramashly_row row = stramashly_no_row();
    row.kind = STRAMASHLY_KIND_CONTROL_BARRIER;
    row.agent = agent_of(at);
    row.order = STRAMASHLY_ORDER_ACQUIRE_RELEASE;
    row.scope = STRAMASHLY_SCOPE_WORKGROUP;
    row.semantics = STRAMASHLY_SEMANTICS_WORKGROUP;
    row.flags = STRAMASHLY_FLAG_MAKE_AVAILABLE | STRAMASHLY_FLAG_MAKE_VISIBLE;
    row.class_or_execution = STRAMASHLY_SCOPE_WORKGROUP;
    row.start = (uint16_t)workgroup; /* the instance: each workgroup meets once */
    add(row);
  }
}

/* ---- the device: memory, and invocations that take one step at a time */

static unsigned workgroups = 2, seed = 1;
static uint32_t memory[MEMORY / 4];
static struct {
  unsigned step, item;
  uint32_t sum;
} invocations[MOST];
static unsigned waiting[MOST_WORKGROUPS];

enum { STORE, BARRIER, WAIT, ADD_SHARED, STORE_SUM, DRAW, ADD_PARTIAL, STORE_RESULT, ENDED };

/* One instruction of one invocation: it takes effect, and it is noted. */
static void take_step(unsigned at) {
  unsigned workgroup = at / PER_WORKGROUP, shared = SHARED_AT + 4 * PER_WORKGROUP * workgroup;
  int is_first = at % PER_WORKGROUP == 0;
  switch (invocations[at].step) {
  case STORE:
    memory[(shared + 4 * (at % PER_WORKGROUP)) / 4] = at + 1;
    record_store(at, SHARED, shared + 4 * (at % PER_WORKGROUP));
    invocations[at].step = forgets_barrier ? (is_first ? ADD_SHARED : ENDED) : BARRIER;
    break;
  case BARRIER:
    invocations[at].step = WAIT;
    if (++waiting[workgroup] == PER_WORKGROUP) {
      unsigned other;
      record_barrier(workgroup);
      for (other = workgroup * PER_WORKGROUP; other < (workgroup + 1) * PER_WORKGROUP; other++)
        invocations[other].step = other % PER_WORKGROUP == 0 ? ADD_SHARED : ENDED;
    }
    break;
  case ADD_SHARED:
    record_load(at, SHARED, shared + 4 * invocations[at].item);
    invocations[at].sum += memory[(shared + 4 * invocations[at].item) / 4];
    if (++invocations[at].item == PER_WORKGROUP) invocations[at].step = STORE_SUM;
    break;
  case STORE_SUM:
    memory[(PARTIAL_AT + 4 * workgroup) / 4] = invocations[at].sum;
    record_store(at, PARTIAL, PARTIAL_AT + 4 * workgroup);
    invocations[at].step = DRAW;
    break;
  case DRAW:
    /* The counter of the ticket's writes begins near its end, to show that it may wrap. */
    record_add(at, TICKET, TICKET_AT, (uint16_t)(65535 + memory[TICKET_AT / 4]));
    invocations[at].step = ++memory[TICKET_AT / 4] == workgroups ? ADD_PARTIAL : ENDED;
    invocations[at].item = 0;
    invocations[at].sum = 0;
    break;
  case ADD_PARTIAL:
    record_load(at, PARTIAL, PARTIAL_AT + 4 * invocations[at].item);
    invocations[at].sum += memory[(PARTIAL_AT + 4 * invocations[at].item) / 4];
    if (++invocations[at].item == workgroups) invocations[at].step = STORE_RESULT;
    break;
  case STORE_RESULT:
    memory[RESULT_AT / 4] = invocations[at].sum;
    record_store(at, RESULT, RESULT_AT);
    invocations[at].step = ENDED;
    break;
  }
}

/* Steps of invocations that can take one, in an order that the seed decides. */
static void run(void) {
  uint32_t random = seed;
  for (;;) {
    unsigned ready[MOST], count = 0, at;
    for (at = 0; at < workgroups * PER_WORKGROUP; at++)
      if (invocations[at].step != WAIT && invocations[at].step != ENDED) ready[count++] = at;
    if (count == 0) return;
    random = random * 1664525u + 1013904223u;
    take_step(ready[(random >> 16) % count]);
  }
}

int main(int count, char **words) {
  int at;
  for (at = 1; at < count; at++) {
    int has_value = at + 1 < count;
    if (strcmp(words[at], "--forget-available") == 0) forgets_available = 1;
    else if (strcmp(words[at], "--forget-barrier") == 0) forgets_barrier = 1;
    else if (strcmp(words[at], "--relaxed") == 0) is_relaxed = 1;
    else if (strcmp(words[at], "--workgroups") == 0 && has_value) workgroups = (unsigned)atoi(words[++at]);
    else if (strcmp(words[at], "--seed") == 0 && has_value) seed = (unsigned)atoi(words[++at]);
    else if (strcmp(words[at], "--out") == 0 && has_value) folder = words[++at];
    else workgroups = 0;
  }
  if (workgroups < 1 || workgroups > MOST_WORKGROUPS) {
    fprintf(stderr, "usage: recorder [--workgroups 1 to %d] [--seed N] [--out FOLDER]\n"
                    "                [--forget-available] [--forget-barrier] [--relaxed]\n", MOST_WORKGROUPS);
    return 4;
  }
  for (at = 0; at < MEMORY; at++) writer_of[at].table = -1;
  begin_table();
  run();
  end_table();
  printf("result %u\n", (unsigned)memory[RESULT_AT / 4]);
  return highest;
}
