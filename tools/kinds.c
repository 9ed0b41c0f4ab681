/*
 * Shows rule by rule whether a book, and whether a cue, keeps to a list of kinds (02, F-8): which word has which kind where another is listed, so
 * that a designer sees which rule sends a colour to a dimmer. Whether both pass is cue_test_kinds' answer alone; the lines before it say why.
 *
 *     gcc -std=c99 -Iinclude tools/kinds.c target/staticlib/libcue.a -o target/kinds
 */
#include <stdio.h>
#include <string.h>

#include "cue.h"

#define TOOL "kinds"
#include "files.h"

static const char help[] =
    "kinds BOOK KINDS        tests the book by the kinds, and prints for each rule whether it passes\n"
    "kinds BOOK KINDS CUE    the same, and whether the cue does\n"
    "\n"
    "Files of words, low byte first, as tools/words packs them: BOOK and CUE are show.book and show.cue (an allowance, which does not count\n"
    "here, then the cue); KINDS has for each name of the book the kind of its outcome, from 0 to 63, and then that of each of its arguments. A line\n"
    "for each rule, and for a whole cue, tells its kind and whether it passes; where it fails, a line for each word of another kind than is\n"
    "listed for its place, by its index in the book or in the cue. Then come the three numbers of the test, with their word.\n"
    "Exit status: 0 taken; 1 any other number; 2 a file that can't be read, an output that can't be written, or bad usage.\n";

#define NONE 64 /* no kind, where none is known yet */

/* all the memory there is: a book, a list of kinds, an allowance and a cue; and the kinds of the places to come, the next one last */
static uint16_t book[CUE_BOOK_WORDS];
static uint16_t list[CUE_KINDS_WORDS];
static uint16_t cue[1 + CUE_TERM_WORDS];
static uint16_t due[CUE_ARGUMENTS * CUE_TERM_WORDS];
static size_t book_words, list_words, cue_words;
static cue_shape shape;

/* a name's argument count; that of a level or a built-in word */
static size_t arguments(unsigned w) {
  if (w < shape.symbols) return book[1 + w];
  return w == CUE_HIGHER_OF || w == CUE_LOWER_OF ? 2 : w == CUE_CURVE;
}

/* the index in the list at which the kinds of a name start; how many there are in all, if it is the number of names */
static size_t offset(size_t name) {
  size_t f, at = 0;
  for (f = 0; f < name; f++) at += 1 + book[1 + f];
  return at;
}

/* the kind that is listed for a word's outcome (0), or for one of its arguments; 0 for a level and for a built-in word */
static unsigned listed(unsigned w, size_t argument) { return w < shape.symbols ? list[offset(w) + argument] : 0; }

static void print_word(unsigned w) {
  if (w >= CUE_VARIABLE) printf("placeholder %u", w - CUE_VARIABLE);
  else if (w == CUE_HIGHER_OF) printf("higher of");
  else if (w == CUE_LOWER_OF) printf("lower of");
  else if (w == CUE_CURVE) printf("curve");
  else if (w >= CUE_LEVEL) printf("level %u", w - CUE_LEVEL);
  else printf("name %u", w);
}

/* the words from `at` on, n of them, in a place of this kind: how many have another kind than is listed for their place. Their lines are printed
   if asked for. A placeholder has the kind of its first place, which `holes` keeps */
static size_t walk(const uint16_t *words, size_t at, size_t n, unsigned kind, unsigned *holes, int print) {
  size_t i, j, places = 0, wrong = 0;
  due[places++] = (uint16_t)kind;
  for (i = at; i < at + n; i++) {
    unsigned w = words[i], place = due[--places], has;
    if (w < CUE_VARIABLE) {
      has = listed(w, 0);
      for (j = arguments(w); j > 0; j--) due[places++] = (uint16_t)listed(w, j);
    } else {
      unsigned *hole = &holes[w - CUE_VARIABLE];
      if (*hole == NONE) *hole = place;
      has = *hole;
    }
    if (has == place) continue;
    wrong++;
    if (!print) continue;
    printf("           word %lu: ", (unsigned long)i);
    print_word(w);
    printf(" is kind %u, in a place of kind %u\n", has, place);
  }
  return wrong;
}

/* both sides of a rule, the right one in a place of the left one's kind */
static size_t walk_rule(size_t left, size_t left_words, size_t right, size_t right_words, int print) {
  unsigned holes[CUE_VARIABLES], v, kind = listed(book[left], 0);
  size_t wrong;
  for (v = 0; v < CUE_VARIABLES; v++) holes[v] = NONE;
  wrong = walk(book, left, left_words, kind, holes, print);
  return wrong + walk(book, right, right_words, kind, holes, print);
}

/* a line for each rule. The first that fails must be the one that the test tells */
static void print_rules(cue_answer test) {
  size_t k, at = shape.first_rule, first = shape.rules;
  printf("rule kind\n");
  for (k = 0; k < shape.rules; k++) {
    size_t left = at + 1, left_words = book[at], right = left + left_words + 1, right_words = book[right - 1];
    int fails = walk_rule(left, left_words, right, right_words, 0) > 0;
    printf("%4lu %4u  %s\n", (unsigned long)k, listed(book[left], 0), fails ? "fails" : "passes");
    walk_rule(left, left_words, right, right_words, 1);
    if (fails && first == shape.rules) first = k;
    at = right + right_words;
  }
  if (first != (test.number == CUE_ILL_RULE ? test.place : shape.rules)) refuse("the lines of the rules", "the test tells otherwise");
}

/* a line for a whole cue */
static void print_cue(cue_answer test) {
  const uint16_t *words = cue + 1;
  unsigned kind = listed(words[0], 0);
  int fails = walk(words, 0, cue_words - 1, kind, NULL, 0) > 0;
  printf(" cue %4u  %s\n", kind, fails ? "fails" : "passes");
  walk(words, 0, cue_words - 1, kind, NULL, 1);
  if (fails != (test.number == CUE_ILL_CUE)) refuse("the line of the cue", "the test tells otherwise");
}

/* what is wrong with a list that is not a list of kinds for the book: the test has no place for it */
static void print_list(void) {
  size_t f, i, n = offset(shape.symbols);
  if (list_words != n) {
    printf("names and arguments %lu, kinds %lu\n", (unsigned long)n, (unsigned long)list_words);
    return;
  }
  for (f = 0; f < shape.symbols; f++) {
    for (i = 0; i <= arguments((unsigned)f); i++) {
      unsigned kind = listed((unsigned)f, i);
      if (kind <= CUE_MAX_KIND) continue;
      printf("name %lu, ", (unsigned long)f);
      if (i > 0) printf("argument %lu", (unsigned long)i);
      else printf("outcome");
      printf(": kind %u, not 0 to %d\n", kind, CUE_MAX_KIND);
    }
  }
}

int main(int argc, char **argv) {
  cue_answer a;
  if (argc == 2 && strcmp(argv[1], "--help") == 0) return finish(fputs(help, stdout) == EOF);
  if (argc < 3 || argc > 4 || argv[1][0] == '-') {
    fprintf(stderr, "kinds: usage: kinds BOOK KINDS [CUE] | kinds --help\n");
    return 2;
  }
  book_words = load(argv[1], book, CUE_BOOK_WORDS);
  list_words = load(argv[2], list, CUE_KINDS_WORDS);
  /* level 0 stands for a cue that is not there: it is whole, and well-kinded, over every book and list */
  cue[1] = CUE_LEVEL;
  cue_words = argc == 4 ? load(argv[3], cue, 1 + CUE_TERM_WORDS) : 2;
  if (cue_words == 0) refuse(argv[3], "its first word, the allowance, is missing");
  shape = cue_shape_of(book, book_words);
  a = cue_test_kinds(book, book_words, cue + 1, cue_words - 1, list, list_words);
  if (a.number == CUE_TAKEN || a.number == CUE_ILL_RULE || a.number == CUE_BROKEN || a.number == CUE_ILL_CUE) print_rules(a);
  if (argc == 4 && (a.number == CUE_TAKEN || a.number == CUE_ILL_CUE)) print_cue(a);
  if (a.number == CUE_MISKINDED) print_list();
  printf("number place steps\n%lu %lu %lu %s\n", (unsigned long)a.number, (unsigned long)a.place, (unsigned long)a.steps, cue_word(a.number));
  return finish(a.number != CUE_TAKEN);
}
