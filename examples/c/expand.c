/* Expands the cue 2 3 4 (head of rest of chase) over book B, and prints what the program `expand` prints for it. */
#include <stdio.h>

#include "cue.h"

/* names flash, then(_, _), head(_), rest(_), chase; then holds back its second argument */
static const uint16_t book[] = {
    5, 0, 2, 1, 1, 0,                                              /* five names and their argument counts */
    5, 0, 1, 1, 2, 1, 0, 2, 1, 0, 1, 0,                            /* their orders: (), (1), (1 0), (1 0), (0) */
    3,                                                             /* three rules */
    1, 4, 3, 1, 0, 4,                                              /* chase -> then(flash, chase) */
    4, 2, 1, CUE_VARIABLE, CUE_VARIABLE + 1, 1, CUE_VARIABLE,      /* head(then(x, y)) -> x */
    4, 3, 1, CUE_VARIABLE, CUE_VARIABLE + 1, 1, CUE_VARIABLE + 1,  /* rest(then(x, y)) -> y */
};

static const uint16_t cue[] = {2, 3, 4};

/* the desk's own memory: nothing else is used */
static uint16_t out[CUE_TERM_WORDS];
static uint16_t work[CUE_WORK_WORDS];

int main(void) {
  cue_answer a;
  size_t i;
  if (cue_version() != CUE_VERSION) {
    fprintf(stderr, "expand: cue.h and libcue.a are of different versions\n");
    return 1;
  }
  a = cue_expand(book, sizeof book / sizeof book[0], cue, sizeof cue / sizeof cue[0], 10, out, CUE_TERM_WORDS, work, CUE_WORK_WORDS);
  printf("number place steps\n%lu %lu %lu\n", (unsigned long)a.number, (unsigned long)a.place, (unsigned long)a.steps);
  if (a.number == CUE_TAKEN) {
    for (i = 0; i < a.place; i++) {
      printf("%u\n", (unsigned)out[i]);
    }
  }
  return 0;
}
