/* What the tests share: table P, lent buffers, and the counts of what holds. */
#ifndef COMMON_H
#define COMMON_H

#include "stramashly.h"

/* Where rows begin in table P, and the fields that the tests change. */
enum { ROWS_AT = 20, ROW_BYTES = 16, FLAGS = 5, LENGTH = 7, SOURCE = 12, TABLE_BYTES = 84 };

/* What the buffers hold before a call. */
enum { ORIGINAL = 0x7777 };

/* Longer than needed by one, so that a number too many would be seen. */
extern uint64_t work[STRAMASHLY_WORK_WORDS + 1];
extern uint16_t cycle[STRAMASHLY_CYCLE_NUMBERS + 1];
extern uint16_t sources[STRAMASHLY_SOURCE_NUMBERS + 1];
extern uint16_t chain[STRAMASHLY_CHAIN_NUMBERS + 1];

/* P, with what a test has changed. */
extern uint8_t table[TABLE_BYTES];

/* P as it was, and buffers that hold something else than zeros. */
void prepare(void);
void set_source(int row, unsigned source);

/* Puts the bytes that hex digits say; how many there are. */
size_t put_hex(uint8_t *bytes, const char *hex);

/* Counts a test. */
void expect(int holds, const char *what);
uint64_t packed(unsigned code, unsigned a, unsigned b, unsigned c);
uint64_t refused(unsigned number, unsigned row);

int all_numbers(const uint16_t *numbers, size_t from, size_t to, uint16_t number);
int is_work_cleared(void);
int is_work_kept(void);
int is_cycle_kept(void);
int are_sources_kept(void);
int is_chain_kept(void);

/* The tests, one function a file. */
void test_check_and_fill(void);
void test_derivations(void);
void test_reports(void);
void test_limits(void);
void test_versions(void);
void test_hosts(void);
void test_chains(void);
void test_writer(void);
void test_values(void);
void test_pieces(void);

#endif
