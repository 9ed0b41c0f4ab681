/*
 * Shows rule by rule whether a book falls under a list of weights (02, F-6), so that a designer sees which weights to mend, and what a cue
 * weighs before and after its expansion. Whether the list is taken is cue_test_weights' answer alone; the lines before it say why.
 *
 *     gcc -std=c99 -Iinclude tools/weights.c target/staticlib/libcue.a -o target/weights
 */
#include <stdio.h>
#include <string.h>

#include "cue.h"

#define TOOL "weights"
#include "files.h"

static const char help[] =
    "weights BOOK WEIGHTS        tests the book by the weights, and prints what the sides of its rules weigh\n"
    "weights BOOK WEIGHTS CUE    the same, and where every rule falls, expands the cue with its weight as the allowance\n"
    "\n"
    "Files of words, low byte first, as tools/words packs them: BOOK and CUE are show.book and show.cue (an allowance, which does not count\n"
    "here, then the cue), WEIGHTS has a weight from 1 to 1,000 for each name of the book. A line for each rule tells its number, from 0, what\n"
    "its left and its right side weigh, and whether it falls or why not; then come the three numbers of the test, with their word. Of the cue\n"
    "they come between its weight and that of the answer: the steps and the answer's weight are at most the cue's weight.\n"
    "Exit status: 0 taken; 1 any other number; 2 a file that can't be read, an output that can't be written, or bad usage.\n";

/* all the memory there is: a book, a list of weights, an allowance and a cue; and what is lent to the expansion */
static uint16_t book[CUE_BOOK_WORDS];
static uint16_t list[CUE_SYMBOLS];
static uint16_t cue[1 + CUE_TERM_WORDS];
static uint16_t out[CUE_TERM_WORDS];
static uint16_t work[CUE_WORK_WORDS];
static size_t book_words, list_words, cue_words;

static unsigned long weight(const uint16_t *words, size_t n) { return cue_weigh(list, list_words, words, n); }

static void print_numbers(cue_answer a) {
  printf("number place steps\n%lu %lu %lu %s\n", (unsigned long)a.number, (unsigned long)a.place, (unsigned long)a.steps, cue_word(a.number));
}

/* what is wrong with a list that is not a list of weights for the book: the test has no place for it */
static void print_list(void) {
  size_t f, names = cue_shape_of(book, book_words).symbols;
  if (list_words != names) {
    printf("names %lu, weights %lu\n", (unsigned long)names, (unsigned long)list_words);
    return;
  }
  for (f = 0; f < names; f++) {
    if (list[f] >= 1 && list[f] <= CUE_MAX_WEIGHT) continue;
    printf("name %lu weighs %u, not 1 to %d\n", (unsigned long)f, (unsigned)list[f], CUE_MAX_WEIGHT);
  }
}

/* the side whose length is this word of the book */
static cue_part side(size_t at) {
  cue_part p;
  p.start = at + 1;
  p.length = book[at];
  return p;
}

static size_t occurs(cue_part p, unsigned word) {
  size_t i, n = 0;
  for (i = 0; i < p.length; i++) n += book[p.start + i] == word;
  return n;
}

/* a rule's line, and whether it falls. Every reason is told: no weights mend a placeholder that is on the right more often than on the left */
static int print_rule(size_t k, cue_part left, cue_part right) {
  unsigned long from = weight(book + left.start, left.length), to = weight(book + right.start, right.length);
  int falls = from > to;
  unsigned v;
  printf("%4lu %5lu %5lu %s", (unsigned long)k, from, to, falls ? "" : " not lighter");
  for (v = 0; v < CUE_VARIABLES; v++) {
    unsigned long had = occurs(left, CUE_VARIABLE + v), has = occurs(right, CUE_VARIABLE + v);
    if (has <= had) continue;
    printf("%s placeholder %u from %lu to %lu", falls ? "" : ",", v, had, has);
    falls = 0;
  }
  printf("%s\n", falls ? " falls" : "");
  return falls;
}

/* a line for each rule. The first that does not fall must be the one that the test tells */
static void print_rules(cue_answer test) {
  cue_shape shape = cue_shape_of(book, book_words);
  size_t k, at = shape.first_rule, first = shape.rules;
  printf("rule  left right\n");
  for (k = 0; k < shape.rules; k++) {
    cue_part left = side(at), right = side(left.start + left.length);
    if (!print_rule(k, left, right) && first == shape.rules) first = k;
    at = right.start + right.length;
  }
  if (first != (test.number == CUE_RISING ? test.place : shape.rules)) refuse("the lines of the rules", "the test tells otherwise");
}

/* expands the cue, with its weight as the allowance: its number */
static uint32_t print_expansion(void) {
  uint32_t limit = cue_weigh(list, list_words, cue + 1, cue_words - 1);
  cue_answer a = cue_expand(book, book_words, cue + 1, cue_words - 1, limit, out, CUE_TERM_WORDS, work, CUE_WORK_WORDS);
  printf("the cue weighs %lu, and that is its allowance\n", (unsigned long)limit);
  print_numbers(a);
  if (a.number == CUE_TAKEN) printf("the answer weighs %lu\n", weight(out, a.place));
  return a.number;
}

int main(int argc, char **argv) {
  cue_answer test;
  if (argc == 2 && strcmp(argv[1], "--help") == 0) return finish(fputs(help, stdout) == EOF);
  if (argc < 3 || argc > 4 || argv[1][0] == '-') {
    fprintf(stderr, "weights: usage: weights BOOK WEIGHTS [CUE] | weights --help\n");
    return 2;
  }
  book_words = load(argv[1], book, CUE_BOOK_WORDS);
  list_words = load(argv[2], list, CUE_SYMBOLS);
  if (argc == 4) {
    cue_words = load(argv[3], cue, 1 + CUE_TERM_WORDS);
    if (cue_words == 0) refuse(argv[3], "its first word, the allowance, is missing");
  }
  test = cue_test_weights(book, book_words, list, list_words);
  if (test.number == CUE_TAKEN || test.number == CUE_RISING) print_rules(test);
  if (test.number == CUE_MISWEIGHED) print_list();
  print_numbers(test);
  if (test.number != CUE_TAKEN) return finish(1);
  return finish(argc == 4 && print_expansion() != CUE_TAKEN);
}
