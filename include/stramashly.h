/* Stramashly: a race checker for recorded runs of a graphics device.
 *
 * Link with libstramashly.a (made by `tools/library`).
 *
 * Each function judges one table of bytes, laid out as docs/FORMAT.md says, by
 * the rules of docs/RULES.md. The answer and what the buffers hold afterwards
 * depend on the arguments alone, so threads may call them at once, each with
 * buffers of its own. A pointer must be good for its length, which may be any
 * number, and no two buffers may overlap.
 *
 * The answer is one number: code * 2^48 + a * 2^32 + b * 2^16 + c.
 *
 *   code                     given by      a           b         c
 *   0  race-free             check
 *   1  race                  check, fill   lower row   higher    byte
 *   2  overwritten           check, report reader      writer    byte
 *   3  cycle                 check, report its rows' number
 *   4  refused               each          number      row      enum stramashly_refusal
 *   5  none                  fill
 *   6  filled                fill          rows of the table
 *   7  report                report        mutual      ordered   racing
 *   8  a derivation          derive        class set   steps
 *   9  not before            derive
 *  10  accepted              accepts
 *  11  not accepted          accepts
 *  12  written               write         bytes of the table
 *  13  opened                open          rows        agents
 *  14  a row                 row           next place
 *  15  the end               row           the place, which stays
 *  16  a row's place         row2          piece       first byte
 *  17  no row                row2
 *  18  no conflicting pair   report
 *  19  read                  read          256 * the version + agents
 *                                                      rows      dependencies
 *
 * Parts that the table above leaves empty are 0. A byte is its number among
 * the 65,536 that a table speaks of.
 *
 * What the buffers hold afterwards:
 *
 *   refused        every buffer is as it was
 *   otherwise      the first STRAMASHLY_WORK_WORDS words of the work area are
 *                  zeros, whatever they were before; later words are as they were
 *   cycle          the first STRAMASHLY_CYCLE_NUMBERS numbers of the cycle buffer
 *                  are the cycle's rows from place 0 and its edge numbers from
 *                  place STRAMASHLY_CYCLE_EDGES, other places 0; later numbers
 *                  are as they were. Any other answer leaves this buffer alone.
 *   filled         the first a numbers of the source buffer are the rows'
 *                  sources; later numbers are as they were. Any other answer
 *                  leaves this buffer alone.
 *   report         the number lent for the share is the racing pairs' part of
 *                  the conflicting ones. Any other answer leaves it alone.
 *   a derivation   the first b numbers of the chain buffer are the steps; later
 *                  numbers are as they were. Any other answer leaves this
 *                  buffer alone.
 *   written        the first a bytes of the buffer are the table; later bytes
 *                  are as they were
 *   read           the first numbers of the places, bytes of the rows and
 *                  numbers of the dependencies are the table's values, as
 *                  stramashly_write takes them; what stands after them is as it
 *                  was
 *   a row          the first STRAMASHLY_ROW_BYTES bytes of the buffer are the
 *                  row's; later bytes are as they were. The end leaves it alone.
 *
 * A work area or another lent buffer that is too short is refused before
 * anything else is looked at.
 *
 * A derivation says why one moment of a table happens before another. A moment
 * is 3 * its row + 0, 1 or 2 for before the row, the row itself, after it. Either
 * program order is the reason: then STRAMASHLY_PROGRAM_ORDER stands in the place
 * of the class set, and there are no steps. Or a chain of 1 to 383 steps leads
 * from the first moment to the second for one class set, 1 to 15: the sum of 1
 * Uniform, 2 Workgroup, 4 Image, 8 Output. A step is STRAMASHLY_STEP_CASE * its
 * case (1 synchronizes-with, 2 to a release, 3 from an acquire, 4 a dependency) +
 * the moment that it reaches. Numbers that aren't those of two different moments
 * of the table are refused (12), after all that a fill refuses.
 *
 * A table may come in two pieces: the first an ordinary table, the second only
 * rows of 16 bytes, to be added after its rows, sources and moments counted over
 * both. The functions whose names end in 2 take it so, and answer as the others do
 * of the joined table: its header counts all rows, the rows of the second piece
 * follow those of the first, and the dependencies of a table of version 3, which
 * stay with the first piece and may name rows of either, come last. An empty second
 * piece makes no difference. The refusals of the first piece up to LENGTH come
 * before ROWS, then LIMITS of all rows, then the others of the joined table.
 *
 * The switch `chains` says whether the device reports the feature
 * vulkanMemoryModelAvailabilityVisibilityChains: 0, or STRAMASHLY_CHAINS; any
 * other number than 0 counts as on. Whatever is ordered with it off is ordered
 * with it on. Refusals and derivations don't depend on it.
 */
#ifndef STRAMASHLY_H
#define STRAMASHLY_H

#include <stddef.h>
#include <stdint.h>

#ifdef __cplusplus
extern "C" {
#endif

/* The version of this header and of the library that is released with it. A
 * program that is linked with the shared library finds at run time one of the same
 * first two numbers, since these are part of the library's name. */
#define STRAMASHLY_VERSION_MAJOR 0
#define STRAMASHLY_VERSION_MINOR 3
#define STRAMASHLY_VERSION_PATCH 0
#define STRAMASHLY_VERSION "0.3.0"

/* The same as a function, for languages that call and don't preprocess. */
static inline const char *stramashly_version(void) { return STRAMASHLY_VERSION; }

/* Least lengths of the lent buffers, each in its own numbers. */
#define STRAMASHLY_WORK_WORDS 8192
#define STRAMASHLY_CYCLE_NUMBERS 256
#define STRAMASHLY_SOURCE_NUMBERS 128
#define STRAMASHLY_CHAIN_NUMBERS 383
#define STRAMASHLY_READ_PLACES 128
#define STRAMASHLY_READ_ROWS 2048
#define STRAMASHLY_READ_DEPENDENCIES 128

/* Where a cycle's edge numbers begin in the cycle buffer. */
#define STRAMASHLY_CYCLE_EDGES 128

/* Bytes of a row, and numbers of a place and of a dependency, as a writer takes
 * them. */
#define STRAMASHLY_ROW_BYTES 16
#define STRAMASHLY_PLACE_NUMBERS 4
#define STRAMASHLY_DEPENDENCY_NUMBERS 2

/* Most agents, rows and dependencies of a table, and its most bytes, those of
 * version 3: a header of 8, 8 for each agent, 16 for each row, a count of 2, 4 for
 * each dependency. Versions 1 and 2 have 6 for each agent and no dependencies. */
#define STRAMASHLY_AGENTS 32
#define STRAMASHLY_ROWS 128
#define STRAMASHLY_DEPENDENCIES 64
#define STRAMASHLY_TABLE_BYTES 2570

/* The switch of check, fill and report, on: the device has chains. */
#define STRAMASHLY_CHAINS 1

/* Sources: the initial value, and a blank for a fill to decide. */
#define STRAMASHLY_INITIAL 65535
#define STRAMASHLY_BLANK 65534

/* Derivations: the word program order in the place of a class set, and what a
 * step's case is multiplied by. */
#define STRAMASHLY_PROGRAM_ORDER 16
#define STRAMASHLY_STEP_CASE 512

/* The numbers that a row and an agent are made of. docs/FORMAT.md says what they
 * mean, docs/RECORDING.md which operation of SPIR-V and Vulkan is which. */
enum stramashly_kind {
  STRAMASHLY_KIND_PLAIN_READ = 0,
  STRAMASHLY_KIND_PLAIN_WRITE = 1,
  STRAMASHLY_KIND_ATOMIC_READ = 2,
  STRAMASHLY_KIND_ATOMIC_WRITE = 3,
  STRAMASHLY_KIND_READ_MODIFY_WRITE = 4,
  STRAMASHLY_KIND_BARRIER = 5,
  STRAMASHLY_KIND_CONTROL_BARRIER = 6,
  /* version 3, of queue agents only */
  STRAMASHLY_KIND_AVAILABILITY_TO_HOST = 7,
  STRAMASHLY_KIND_AVAILABILITY_TO_DEVICE = 8,
  STRAMASHLY_KIND_VISIBILITY_FROM_HOST = 9,
  STRAMASHLY_KIND_VISIBILITY_FROM_DEVICE = 10,
  STRAMASHLY_KIND_DOMAIN_HOST_TO_DEVICE = 11,
  STRAMASHLY_KIND_DOMAIN_DEVICE_TO_HOST = 12
};

enum stramashly_order {
  STRAMASHLY_ORDER_RELAXED = 0,
  STRAMASHLY_ORDER_ACQUIRE = 1,
  STRAMASHLY_ORDER_RELEASE = 2,
  STRAMASHLY_ORDER_ACQUIRE_RELEASE = 3
};

enum stramashly_scope {
  STRAMASHLY_SCOPE_INVOCATION = 0,
  STRAMASHLY_SCOPE_SUBGROUP = 1,
  STRAMASHLY_SCOPE_WORKGROUP = 2,
  STRAMASHLY_SCOPE_QUEUE_FAMILY = 3,
  STRAMASHLY_SCOPE_DEVICE = 4
};

/* The class of memory that a row accesses. */
enum stramashly_class {
  STRAMASHLY_CLASS_UNIFORM = 0,
  STRAMASHLY_CLASS_WORKGROUP = 1,
  STRAMASHLY_CLASS_IMAGE = 2,
  STRAMASHLY_CLASS_OUTPUT = 3
};

/* The classes that an atomic or a barrier is for, as a sum. */
enum stramashly_semantics {
  STRAMASHLY_SEMANTICS_UNIFORM = 1,
  STRAMASHLY_SEMANTICS_WORKGROUP = 2,
  STRAMASHLY_SEMANTICS_IMAGE = 4,
  STRAMASHLY_SEMANTICS_OUTPUT = 8
};

/* Flags of a row, as a sum. */
enum stramashly_flag {
  STRAMASHLY_FLAG_NON_PRIVATE = 1,
  STRAMASHLY_FLAG_MAKE_AVAILABLE = 2,
  STRAMASHLY_FLAG_MAKE_VISIBLE = 4
};

/* What an agent is; before version 3 all are shader invocations. */
enum stramashly_agent_kind {
  STRAMASHLY_AGENT_SHADER = 0,
  STRAMASHLY_AGENT_HOST = 1,
  STRAMASHLY_AGENT_QUEUE = 2
};

/* A row as numbers. Start with stramashly_no_row, whose source is the one of a row
 * that doesn't read, and set what the row has. */
struct stramashly_row {
  uint8_t kind;       /* enum stramashly_kind */
  uint8_t agent;      /* its number, from 0 */
  uint8_t order;      /* enum stramashly_order */
  uint8_t scope;      /* enum stramashly_scope */
  uint8_t semantics;  /* a sum of enum stramashly_semantics */
  uint8_t flags;      /* a sum of enum stramashly_flag */
  uint8_t class_or_execution; /* enum stramashly_class; a control barrier's execution scope */
  uint8_t length;     /* bytes accessed */
  uint16_t start;     /* first byte accessed; a control barrier's instance */
  uint16_t reference; /* variable or pointer by which the bytes are reached */
  uint16_t source;    /* the row that was read, STRAMASHLY_INITIAL or STRAMASHLY_BLANK */
  uint16_t rank;      /* an atomic writer's place in its location's modification order */
};

/* A row of zeros that reads nothing. */
static inline struct stramashly_row stramashly_no_row(void) {
  struct stramashly_row row = {0, 0, 0, 0, 0, 0, 0, 0, 0, 0, STRAMASHLY_INITIAL, 0};
  return row;
}

/* Writes a row's STRAMASHLY_ROW_BYTES bytes, as stramashly_write and the second of
 * two pieces take them. Nothing is judged here: stramashly_write refuses numbers
 * that a row can't have. */
static inline void stramashly_encode_row(const struct stramashly_row *row, uint8_t *bytes) {
  const uint16_t numbers[4] = {row->start, row->reference, row->source, row->rank};
  unsigned at;
  bytes[0] = row->kind;
  bytes[1] = row->agent;
  bytes[2] = row->order;
  bytes[3] = row->scope;
  bytes[4] = row->semantics;
  bytes[5] = row->flags;
  bytes[6] = row->class_or_execution;
  bytes[7] = row->length;
  for (at = 0; at < 4; at++) {
    bytes[8 + 2 * at] = (uint8_t)(numbers[at] >> 8);
    bytes[9 + 2 * at] = (uint8_t)(numbers[at] & 0xFF);
  }
}

/* The numbers of a row's STRAMASHLY_ROW_BYTES bytes, as stramashly_row and
 * stramashly_read give them. */
static inline struct stramashly_row stramashly_decode_row(const uint8_t *bytes) {
  struct stramashly_row row;
  row.kind = bytes[0];
  row.agent = bytes[1];
  row.order = bytes[2];
  row.scope = bytes[3];
  row.semantics = bytes[4];
  row.flags = bytes[5];
  row.class_or_execution = bytes[6];
  row.length = bytes[7];
  row.start = (uint16_t)(bytes[8] << 8 | bytes[9]);
  row.reference = (uint16_t)(bytes[10] << 8 | bytes[11]);
  row.source = (uint16_t)(bytes[12] << 8 | bytes[13]);
  row.rank = (uint16_t)(bytes[14] << 8 | bytes[15]);
  return row;
}

enum stramashly_code {
  STRAMASHLY_RACE_FREE = 0,
  STRAMASHLY_RACE = 1,
  STRAMASHLY_OVERWRITTEN = 2,
  STRAMASHLY_CYCLE = 3,
  STRAMASHLY_REFUSED = 4,
  STRAMASHLY_NONE = 5,
  STRAMASHLY_FILLED = 6,
  STRAMASHLY_REPORT = 7,
  STRAMASHLY_DERIVATION = 8,
  STRAMASHLY_NOT_BEFORE = 9,
  STRAMASHLY_ACCEPTED = 10,
  STRAMASHLY_NOT_ACCEPTED = 11,
  STRAMASHLY_WRITTEN = 12,
  STRAMASHLY_OPENED = 13,
  STRAMASHLY_ROW = 14,
  STRAMASHLY_END = 15,
  STRAMASHLY_ROW_PLACE = 16,
  STRAMASHLY_NO_ROW = 17,
  STRAMASHLY_NO_PAIRS = 18,
  STRAMASHLY_READ = 19
};

/* Part a of a refusal: which rule of form is broken. Part b is the row that
 * breaks it, 0 where it is no row's. Tested in this order: BUFFER; SHORT,
 * VERSION, LIMITS, LENGTH, and of two pieces ROWS and LIMITS of both; AGENT_KIND,
 * DEPENDENCIES, DEPENDENCY; row by row CODE, AGENT_ROW, then KIND_FIT and EXTENT or
 * OPERATION_FIT; row by row CLASS, SOURCE, RANK, INSTANCE, RUN; MOMENTS; ROOM. */
enum stramashly_refusal {
  STRAMASHLY_REFUSAL_SHORT = 1,     /* a table of fewer than 8 bytes */
  STRAMASHLY_REFUSAL_VERSION = 2,   /* a version other than 1 to 3, or byte 7 not 0 */
  STRAMASHLY_REFUSAL_LIMITS = 3,    /* more agents or rows than there may be */
  STRAMASHLY_REFUSAL_LENGTH = 4,    /* not as many bytes as the header says */
  STRAMASHLY_REFUSAL_CODE = 5,      /* a row's code out of range */
  STRAMASHLY_REFUSAL_KIND_FIT = 6,  /* fields that the row's kind may not have */
  STRAMASHLY_REFUSAL_EXTENT = 7,    /* a length or start that the access may not have */
  STRAMASHLY_REFUSAL_CLASS = 8,     /* its reference has another class in an earlier row */
  STRAMASHLY_REFUSAL_SOURCE = 9,    /* no row that it can have read, or a blank */
  STRAMASHLY_REFUSAL_RANK = 10,     /* the rank of an earlier, mutually-ordered writer */
  STRAMASHLY_REFUSAL_BUFFER = 11,   /* a lent buffer that is too short */
  STRAMASHLY_REFUSAL_MOMENTS = 12,  /* not two different moments of the table */
  STRAMASHLY_REFUSAL_ROOM = 13,     /* a buffer that is shorter than the table to be written */
  STRAMASHLY_REFUSAL_INSTANCE = 14, /* a control barrier that doesn't fit its instance */
  STRAMASHLY_REFUSAL_RUN = 15,      /* versions 2, 3: ranks further apart than a run of counts */
  STRAMASHLY_REFUSAL_AGENT_KIND = 16,   /* an agent that is no shader, host or queue agent */
  STRAMASHLY_REFUSAL_DEPENDENCIES = 17, /* more dependencies than there may be */
  STRAMASHLY_REFUSAL_DEPENDENCY = 18,   /* a dependency of a row that isn't there */
  STRAMASHLY_REFUSAL_AGENT_ROW = 19,    /* a kind that the row's agent may not have */
  STRAMASHLY_REFUSAL_OPERATION_FIT = 20, /* fields that a queue agent's row may not have */
  STRAMASHLY_REFUSAL_ROWS = 40          /* a second piece that isn't whole rows */
};

/* The parts of an answer. */
#define STRAMASHLY_CODE(answer) ((unsigned)((uint64_t)(answer) >> 48))
#define STRAMASHLY_A(answer) ((unsigned)((uint64_t)(answer) >> 32 & 0xFFFF))
#define STRAMASHLY_B(answer) ((unsigned)((uint64_t)(answer) >> 16 & 0xFFFF))
#define STRAMASHLY_C(answer) ((unsigned)((uint64_t)(answer) & 0xFFFF))

/* Of a report: all conflicting pairs. Parts a, b and c are those that are
 * mutually-ordered, those that aren't but have order at every shared byte, and
 * those that race. */
#define STRAMASHLY_CONFLICTING(answer) \
  (STRAMASHLY_A(answer) + STRAMASHLY_B(answer) + STRAMASHLY_C(answer))

/* Of values that were read: the table's version, and how many agents it has. */
#define STRAMASHLY_READ_VERSION(answer) (STRAMASHLY_A(answer) >> 8)
#define STRAMASHLY_READ_AGENTS(answer) (STRAMASHLY_A(answer) & 0xFF)

/* Checks a table: race-free, race, overwritten, cycle or refused. */
uint64_t stramashly_check(const uint8_t *table, size_t table_len, uint8_t chains,
                          uint64_t *work, size_t work_len,
                          uint16_t *cycle, size_t cycle_len);

/* Decides the blank sources of a table: filled, none, race or refused. */
uint64_t stramashly_fill(const uint8_t *table, size_t table_len, uint8_t chains,
                         uint64_t *work, size_t work_len,
                         uint16_t *sources, size_t sources_len);

/* The same two by the flags engine, which has one flag for each two moments.
 * The answers, and what is left in the buffers, are proved to be the same; it
 * takes many times as long. For whoever wants to see a table judged twice. */
uint64_t stramashly_check_by_flags(const uint8_t *table, size_t table_len, uint8_t chains,
                                   uint64_t *work, size_t work_len,
                                   uint16_t *cycle, size_t cycle_len);
uint64_t stramashly_fill_by_flags(const uint8_t *table, size_t table_len, uint8_t chains,
                                  uint64_t *work, size_t work_len,
                                  uint16_t *sources, size_t sources_len);

/* Why the first moment happens before the second: a derivation, not before or
 * refused. The derivation depends on the table and the moments alone, and
 * stramashly_accepts accepts it. */
uint64_t stramashly_derive(const uint8_t *table, size_t table_len,
                           uint16_t first, uint16_t second,
                           uint64_t *work, size_t work_len,
                           uint16_t *chain, size_t chain_len);

/* Whether a derivation, whoever wrote it, leads from the first moment to the
 * second: accepted, not accepted or refused. There are no steps beside
 * STRAMASHLY_PROGRAM_ORDER. Nothing is written. */
uint64_t stramashly_accepts(const uint8_t *table, size_t table_len,
                            uint16_t first, uint16_t second, uint8_t classes,
                            const uint16_t *steps, size_t steps_len);

/* Counts the conflicting pairs of a table: report, no conflicting pair, or
 * check's answer to a refused or inconsistent table, in the same buffers. Beside a
 * report it writes the racing share to *share, which must be good for one number:
 * the racing pairs divided by the conflicting ones, rounded once. It is 0.0
 * exactly when nothing races and 1.0 exactly when every conflicting pair does.
 * Where no pair conflicts there is no share. */
uint64_t stramashly_report(const uint8_t *table, size_t table_len, uint8_t chains,
                           uint64_t *work, size_t work_len,
                           uint16_t *cycle, size_t cycle_len, double *share);

/* Writes a table of values: written or refused. Of each agent there are
 * STRAMASHLY_PLACE_NUMBERS numbers: family, workgroup, subgroup, and 0 shader, 1
 * host, 2 queue; of each row its STRAMASHLY_ROW_BYTES bytes, as
 * stramashly_encode_row gives them; of each dependency its two rows. As many count as there are whole
 * ones: a rest counts for nothing. A table that is written is one that
 * stramashly_fill doesn't refuse, and it reads back as these values. What a fill
 * refuses is refused alike, from VERSION on and LENGTH aside; before version 3
 * AGENT_KIND is any fourth number but 0, and DEPENDENCIES any dependency; last
 * comes ROOM.
 * STRAMASHLY_TABLE_BYTES are enough for every table. */
uint64_t stramashly_write(uint8_t version,
                          const uint16_t *places, size_t places_len,
                          const uint8_t *rows, size_t rows_len,
                          const uint16_t *dependencies, size_t dependencies_len,
                          uint8_t *out, size_t out_len);

/* The values of a table, the inverse of stramashly_write: read, or refused. A part
 * of fewer than STRAMASHLY_READ_PLACES numbers, STRAMASHLY_READ_ROWS bytes or
 * STRAMASHLY_READ_DEPENDENCIES numbers is refused (BUFFER), then what
 * stramashly_fill refuses. stramashly_write of what was read gives the same bytes,
 * and what stramashly_write wrote reads back as it was given. A table is admitted
 * once, so that this is the way to all rows of one. */
uint64_t stramashly_read(const uint8_t *table, size_t table_len,
                         uint16_t *places, size_t places_len,
                         uint8_t *rows, size_t rows_len,
                         uint16_t *dependencies, size_t dependencies_len);

/* Whether a table can be stepped through: opened, or what stramashly_fill refuses
 * it for, its buffers aside. Nothing is written. */
uint64_t stramashly_open(const uint8_t *table, size_t table_len);

/* The row at a place of a table, or the end. Places begin with 0; part a is the
 * next one. A buffer of fewer than STRAMASHLY_ROW_BYTES bytes is refused (BUFFER),
 * then what stramashly_open refuses, with its number and row, whatever the place.
 * Each call admits the table anew; stramashly_read gives all rows with one. */
uint64_t stramashly_row(const uint8_t *table, size_t table_len, uint16_t at,
                        uint8_t *row, size_t row_len);

/* Check, fill, report, derive and accepts of a table in two pieces. */
uint64_t stramashly_check2(const uint8_t *first, size_t first_len,
                           const uint8_t *second, size_t second_len, uint8_t chains,
                           uint64_t *work, size_t work_len,
                           uint16_t *cycle, size_t cycle_len);

uint64_t stramashly_fill2(const uint8_t *first, size_t first_len,
                          const uint8_t *second, size_t second_len, uint8_t chains,
                          uint64_t *work, size_t work_len,
                          uint16_t *sources, size_t sources_len);

uint64_t stramashly_report2(const uint8_t *first, size_t first_len,
                            const uint8_t *second, size_t second_len, uint8_t chains,
                            uint64_t *work, size_t work_len,
                            uint16_t *cycle, size_t cycle_len, double *share);

/* Why moment m happens before moment k. */
uint64_t stramashly_derive2(const uint8_t *first, size_t first_len,
                            const uint8_t *second, size_t second_len,
                            uint16_t m, uint16_t k,
                            uint64_t *work, size_t work_len,
                            uint16_t *chain, size_t chain_len);

uint64_t stramashly_accepts2(const uint8_t *first, size_t first_len,
                             const uint8_t *second, size_t second_len,
                             uint16_t m, uint16_t k, uint8_t classes,
                             const uint16_t *steps, size_t steps_len);

/* Where a row has its sixteen bytes: part a is 0 for the first piece and 1 for the
 * second, part b the first of the bytes there. No row where neither piece holds it;
 * two pieces that are refused before CODE hold none. Nothing is copied. */
uint64_t stramashly_row2(const uint8_t *first, size_t first_len,
                         const uint8_t *second, size_t second_len, uint16_t row);

#ifdef __cplusplus
}
#endif

#endif
