/*
 * What the test by kinds (02, F-8) really takes of the stack, on a painted one. Over the side that opens the most calls of its one recursion, 31 names
 * of two arguments one in the other to the left, it takes what the header tells, or less; and 30 calls more than over one such name.
 *
 *     depth BYTES FRAME      that the header tells, and that a call of the recursion takes
 */
#include <stdio.h>
#include <stdlib.h>
#include <string.h>
#include <ucontext.h>

#include "cue.h"

#define ROOM 65536
#define PAINT 0xA5
#define PAIRS 31

typedef cue_answer test(const uint16_t *, size_t, const uint16_t *, size_t, const uint16_t *, size_t);

static unsigned char painted[ROOM];
static ucontext_t here, there;
static uintptr_t top;
static uint16_t book[256], kinds[] = {1, 1, 1, 1}, term[] = {CUE_LEVEL};
static size_t words;
static test *volatile tested;
static cue_answer answer;

static void call(void) { answer = tested(book, words, term, 1, kinds, 4); }

/* calls a test on the painted stack */
static void paint(test *f) {
  tested = f;
  memset(painted, PAINT, ROOM);
  getcontext(&there);
  there.uc_stack.ss_sp = painted;
  there.uc_stack.ss_size = ROOM;
  there.uc_link = &here;
  makecontext(&there, call, 0);
  swapcontext(&here, &there);
}

/* in the place of the test: where its stack starts, above the return address, which stands above the caller's frame pointer */
static cue_answer start(const uint16_t *a, size_t i, const uint16_t *b, size_t j, const uint16_t *c, size_t k) {
  cue_answer none = {0, 0, 0};
  (void)a, (void)i, (void)b, (void)j, (void)c, (void)k;
  top = (uintptr_t)__builtin_frame_address(0) + 16;
  return none;
}

/* names 0 leaf and 1 pair(x, y), and a rule whose sides are so many pairs, one in the other to the left, round leaves: the bytes that the test takes */
static unsigned long takes(size_t pairs) {
  static const uint16_t names[] = {2, 0, 2, 2, 0, 0, 1};
  size_t side, i;
  memcpy(book, names, sizeof names);
  words = sizeof names / sizeof names[0];
  for (side = 0; side < 2; side++) {
    book[words++] = (uint16_t)(2 * pairs + 1);
    for (i = 0; i < 2 * pairs + 1; i++) book[words++] = i < pairs;
  }
  paint(start);
  paint(cue_test_kinds);
  for (i = 0; painted[i] == PAINT; i++) continue;
  return (unsigned long)(top - (uintptr_t)(painted + i));
}

int main(int argc, char **argv) {
  unsigned long told = argc == 3 ? strtoul(argv[1], NULL, 10) : 0, frame = argc == 3 ? strtoul(argv[2], NULL, 10) : 0;
  unsigned long flat = takes(1), deep = takes(PAIRS);
  int taken = answer.number == CUE_TAKEN && answer.place == 0 && answer.steps == 0;
  printf("outside: the test by kinds takes %lu bytes of stack over %d nested pairs, %lu over one; the header tells %lu\n", deep, PAIRS, flat, told);
  return taken && deep <= told && deep == flat + (PAIRS - 1) * frame ? 0 : 1;
}
