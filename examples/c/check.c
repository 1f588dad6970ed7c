/* Stramashly from C: answers a file as `stramashly check` does.
 *
 *   cc check.c $(pkg-config --cflags --libs stramashly) -o check
 *   ./check ../leak.table
 */
#include <stdio.h>

#include <stramashly.h>

static uint8_t table[STRAMASHLY_TABLE_BYTES + 1];
static uint64_t work[STRAMASHLY_WORK_WORDS];
static uint16_t cycle[STRAMASHLY_CYCLE_NUMBERS];

int main(int count, char **words) {
  FILE *file = count == 2 ? fopen(words[1], "rb") : NULL;
  if (!file) {
    fprintf(stderr, "usage: check FILE\n");
    return 4;
  }
  size_t length = fread(table, 1, sizeof table, file);
  fclose(file);
  uint64_t answer = stramashly_check(table, length, 0, work, STRAMASHLY_WORK_WORDS, cycle, STRAMASHLY_CYCLE_NUMBERS);
  unsigned a = STRAMASHLY_A(answer), b = STRAMASHLY_B(answer), c = STRAMASHLY_C(answer);
  switch (STRAMASHLY_CODE(answer)) {
  case STRAMASHLY_RACE:
    printf("race %u %u %u\n", a, b, c);
    return 1;
  case STRAMASHLY_OVERWRITTEN:
    printf("overwritten %u %u %u\n", a, b, c);
    return 2;
  case STRAMASHLY_CYCLE:
    printf("cycle %u rows", a);
    for (unsigned i = 0; i < a; i++) printf(" %u", (unsigned)cycle[i]);
    printf(" edges");
    for (unsigned i = 0; i < a; i++) printf(" %u", (unsigned)cycle[STRAMASHLY_CYCLE_EDGES + i]);
    printf("\n");
    return 2;
  case STRAMASHLY_REFUSED:
    printf("refused %u %u\n", a, b);
    return 3;
  default:
    printf("race-free\n");
    return 0;
  }
}
