/* The header's version, sizes, limits and words against what the functions do: at each limit a book or a cue is taken, one above it is not. */
#include <stdio.h>
#include <string.h>

#include "cue.h"

#define ROOM (CUE_BOOK_WORDS + 1)
#define PAIRS 70000 /* more than a word counts */

static uint16_t book[ROOM];
static size_t words;
static uint16_t term[CUE_TERM_WORDS + 1];
static uint16_t out[CUE_TERM_WORDS];
static uint16_t work[CUE_WORK_WORDS + 1];
static uint16_t again[CUE_TERM_WORDS];
static uint16_t spare[CUE_WORK_WORDS];
static uint16_t record[2 * PAIRS + 2];
static uint16_t list[CUE_KINDS_WORDS + 1];
static int wrong;

static void check(const char *what, unsigned long got, unsigned long expected) {
  if (got != expected) {
    printf("header: %s: %lu, where %lu is due\n", what, got, expected);
    wrong = 1;
  }
}

static void put(unsigned long w) { book[words++] = (uint16_t)w; }

/* names with these argument counts and orders of this many entries 0, then `rules` rules whose sides have this many words */
static void make(size_t names, unsigned arguments, size_t entries, size_t rules, size_t side) {
  size_t i, j;
  words = 0;
  put(names);
  for (i = 0; i < names; i++) put(i == 0 ? arguments : i == 1);
  put(names);
  for (i = 0; i < names; i++) {
    put(entries);
    for (j = 0; j < entries; j++) put(0);
  }
  put(rules);
  for (i = 0; i < 2 * rules; i++) {
    put(side);
    for (j = 1; j < side; j++) put(1);
    put(2);
  }
}

static uint32_t reads(void) { return cue_read(book, words).number; }

/* a left side of three nested names of eight arguments each, with this many placeholders: 14 to 22 */
static void variables(size_t n) {
  size_t k;
  make(3, 8, 0, 0, 1);
  words--;
  put(1);
  put(3 + 22);
  for (k = 0; k < 22; k++) {
    if (k % 7 == 0 && k < 21) put(0);
    put(k < n ? CUE_VARIABLE + k : 2);
  }
  put(1);
  put(2);
}

/* over a book of one name, which has no arguments: the number that a cue of one word, or of a word and one level or two, gets */
static uint32_t stands(unsigned long first, size_t term_words) {
  make(1, 0, 0, 0, 1);
  term[0] = (uint16_t)first;
  term[1] = CUE_LEVEL + 100;
  term[2] = CUE_LEVEL + 200;
  return cue_check_term(book, words, term, term_words).number;
}

/* the number that a rule gets whose left side is one word */
static uint32_t starts(unsigned long first) {
  make(1, 0, 0, 1, 1);
  book[words - 3] = (uint16_t)first;
  book[words - 1] = 0;
  return reads();
}

/* a built-in word of levels 100 and 200, or of level 100 alone: the rule that fits, and the level that it puts there */
static void combines(unsigned long first, size_t term_words, size_t rule, unsigned long level) {
  cue_match m;
  cue_answer a;
  check("a built-in word of levels", stands(first, term_words), CUE_TAKEN);
  m = cue_first_match(book, words, term, term_words);
  check("a built-in rule fits", m.found, 1);
  check("its number", m.number, rule);
  check("its right side's words", m.size, 0);
  check("its level", m.word, level);
  a = cue_expand(book, words, term, term_words, 1, out, CUE_TERM_WORDS, work, CUE_WORK_WORDS);
  check("the words after a built-in step", a.place, 1);
  check("the built-in steps", a.steps, 1);
  check("the level after a built-in step", out[0], level);
  check("the span of a built-in word and its arguments", cue_span(book, words, term, CUE_TERM_WORDS), term_words);
}

/* 02, F-2 and F-4: the 256 levels, "higher of", "lower of" and "curve", and no word on either side of them */
static void levels(void) {
  check("the levels' words", CUE_HIGHER_OF - CUE_LEVEL, 256);
  check("level 0", stands(CUE_LEVEL, 1), CUE_TAKEN);
  check("level 255", stands(CUE_LEVEL + 255, 1), CUE_TAKEN);
  check("the word before level 0", stands(CUE_LEVEL - 1, 1), CUE_BROKEN);
  check("the word after curve", stands(CUE_CURVE + 1, 2), CUE_BROKEN);
  check("a level with an argument", stands(CUE_LEVEL, 2), CUE_BROKEN);
  check("higher of, without arguments", stands(CUE_HIGHER_OF, 1), CUE_BROKEN);
  check("lower of, with one argument", stands(CUE_LOWER_OF, 2), CUE_BROKEN);
  check("curve, without its argument", stands(CUE_CURVE, 1), CUE_BROKEN);
  check("curve, with two arguments", stands(CUE_CURVE, 3), CUE_BROKEN);
  combines(CUE_HIGHER_OF, 3, CUE_HIGHER_RULE, CUE_LEVEL + 200);
  combines(CUE_LOWER_OF, 3, CUE_LOWER_RULE, CUE_LEVEL + 100);
  combines(CUE_CURVE, 2, CUE_CURVE_RULE, CUE_LEVEL + 39); /* 10,127 is 39 times 255 and 182 more */
  check("the built-in rules come after the book's", CUE_HIGHER_RULE, CUE_RULES);

  check("a left side of a name", starts(0), CUE_TAKEN);
  check("a left side of level 0", starts(CUE_LEVEL), CUE_BUILTIN);
  check("a left side of level 255", starts(CUE_LEVEL + 255), CUE_BUILTIN);
  check("a left side that starts with higher of", starts(CUE_HIGHER_OF), CUE_BUILTIN);
  check("a left side that starts with lower of", starts(CUE_LOWER_OF), CUE_BUILTIN);
  check("a left side that starts with curve", starts(CUE_CURVE), CUE_BUILTIN);
  check("a left side of the word before level 0", starts(CUE_LEVEL - 1), CUE_STRANGER);
  check("a left side of the word after curve", starts(CUE_CURVE + 1), CUE_STRANGER);
}

/* how many words of the work buffer, from this one on, are the same */
static size_t run(size_t from, uint16_t word) {
  size_t i = from;
  while (i < CUE_WORK_WORDS + 1 && work[i] == word) i++;
  return i - from;
}

/* 02, F-5: a work buffer of the least words is taken, one of a word less is not touched, and of one of a word more the last stays */
static void lends(const char *what, size_t work_words, uint32_t number, size_t zeroed) {
  size_t i;
  for (i = 0; i < CUE_WORK_WORDS + 1; i++) work[i] = 9;
  check(what, cue_expand(book, words, term, CUE_TERM_WORDS, 0, out, CUE_TERM_WORDS, work, work_words).number, number);
  check(what, run(0, 0), zeroed);
  check(what, run(zeroed, 9), CUE_WORK_WORDS + 1 - zeroed);
}

/* names 0 and 1 without arguments; rule 0 puts name 0 for name 1, whose order is 0, and rule 1, which is never the lowest, name 1 */
static void one_step(void) {
  words = 0;
  put(2), put(0), put(0), put(2), put(0), put(1), put(0);
  put(2), put(1), put(1), put(1), put(0), put(1), put(1), put(1), put(1);
  term[0] = 1;
}

static cue_answer recorded(uint32_t limit, size_t record_words) {
  return cue_expand_recorded(book, words, term, 1, limit, out, CUE_TERM_WORDS, work, CUE_WORK_WORDS, record, record_words);
}

static cue_replayed replayed(size_t record_words) {
  return cue_replay(book, words, term, 1, record, record_words, out, CUE_TERM_WORDS, work, CUE_WORK_WORDS);
}

static void replay_is(const char *what, cue_replayed r, uint32_t number, size_t place, size_t steps) {
  check(what, r.number, number);
  check(what, r.place, place);
  check(what, r.steps, steps);
}

/* 02, F-3: the step record and its replay */
static void records(void) {
  size_t i;
  cue_retraced t;
  check("the size of a replay's numbers", sizeof(cue_replayed), 3 * sizeof(size_t));
  check("the size of both answers", sizeof(cue_retraced), sizeof(cue_answer) + sizeof(cue_replayed));
  one_step();
  record[0] = record[1] = 9;
  check("a record of one word", recorded(1, 1).number, CUE_RECORD_FULL);
  check("a word of a record that is too short", record[0], 9);
  check("no allowance comes before no room", recorded(0, 1).number, CUE_SPENT);
  check("a record of two words", recorded(1, 2).number, CUE_TAKEN);
  check("the step's index", record[0], 0);
  check("the step's rule", record[1], 0);
  replay_is("the replay of a step", replayed(2), CUE_TAKEN, 1, 1);
  replay_is("the replay of half a pair", replayed(1), CUE_NO_STEP, 0, 0);
  record[1] = 1;
  replay_is("the replay of a higher rule", replayed(2), CUE_NO_STEP, 0, 0);
  t = cue_expand_retraced(book, words, term, 1, 1, out, CUE_TERM_WORDS, work, CUE_WORK_WORDS, record, 4, again, CUE_TERM_WORDS, spare,
                          CUE_WORK_WORDS);
  check("the steps before a replay", t.answer.steps, 1);
  replay_is("the replay after an expansion", t.replay, CUE_TAKEN, 1, 1);
  t = cue_expand_retraced(book, words, term, 1, 0, out, CUE_TERM_WORDS, work, CUE_WORK_WORDS, record, 4, again, CUE_TERM_WORDS, spare,
                          CUE_WORK_WORDS);
  replay_is("no replay", t.replay, CUE_SPENT, 0, 0);

  /* without its first rule the name stays as it is, as often as anyone likes */
  words -= 9;
  put(1), put(1), put(1), put(1), put(1);
  for (i = 0; i < 2 * PAIRS; i++) record[i] = 0;
  replay_is("many pairs", replayed(2 * PAIRS), CUE_TAKEN, 1, PAIRS);
  record[2 * PAIRS] = 1;
  replay_is("a wrong pair behind many", replayed(2 * PAIRS + 2), CUE_NO_STEP, PAIRS, PAIRS);
}

/* the number that a list gets which gives all names but the last this weight, and the last one that; the names are those of `make` */
static uint32_t weighs(size_t names, unsigned first, unsigned last, size_t list_words) {
  size_t i;
  make(names, 0, 0, 0, 1);
  for (i = 0; i < list_words; i++) list[i] = (uint16_t)(i + 1 < names ? first : last);
  return cue_test_weights(book, words, list, list_words).number;
}

/* what the test answers for a book of two names with these weights */
static void falls(const char *what, unsigned first, unsigned second, uint32_t number, size_t place) {
  cue_answer a;
  list[0] = (uint16_t)first;
  list[1] = (uint16_t)second;
  a = cue_test_weights(book, words, list, 2);
  check(what, a.number, number);
  check(what, a.place, place);
  check(what, a.steps, 0);
}

/* names 0 and 1, with no argument and one; rule 0 makes name 1's argument a level, by "higher of", which has it so often */
static void higher(unsigned often) {
  words = 0;
  put(2), put(0), put(1), put(2), put(0), put(2), put(1), put(0);
  put(1), put(2), put(1), put(CUE_VARIABLE), put(3), put(CUE_HIGHER_OF);
  put(often < 1 ? CUE_LEVEL + 255 : CUE_VARIABLE), put(often < 2 ? CUE_LEVEL : CUE_VARIABLE);
}

/* what the first words of the record weigh, under a list for name 0 alone */
static uint32_t heaps(unsigned weight, size_t n) {
  list[0] = (uint16_t)weight;
  return cue_weigh(list, 1, record, n);
}

/* a cue whose weight is used up: expanded with it as the allowance, it takes so many steps, and the answer weighs the rest */
static void tight(const char *what, size_t term_words, uint32_t steps, uint32_t rest) {
  uint32_t weight = cue_weigh(list, 2, term, term_words);
  cue_answer a = cue_expand(book, words, term, term_words, weight, out, CUE_TERM_WORDS, work, CUE_WORK_WORDS);
  check(what, weight, steps + rest);
  check(what, a.number, CUE_TAKEN);
  check(what, a.steps, steps);
  check(what, cue_weigh(list, 2, out, a.place), rest);
}

/* 02, F-6: the test by weights, and what a cue weighs */
static void weights(void) {
  size_t i;
  check("the largest weight", weighs(3, 1, CUE_MAX_WEIGHT, 3), CUE_TAKEN);
  check("a weight too large", weighs(3, 1, CUE_MAX_WEIGHT + 1, 3), CUE_MISWEIGHED);
  check("a weight too large, of the first name", weighs(3, CUE_MAX_WEIGHT + 1, 1, 3), CUE_MISWEIGHED);
  check("no weight", weighs(3, 1, 0, 3), CUE_MISWEIGHED);
  check("a weight too few", weighs(3, 1, 1, 2), CUE_MISWEIGHED);
  check("a weight too many", weighs(3, 1, 1, 4), CUE_MISWEIGHED);
  check("an empty list", weighs(3, 1, 1, 0), CUE_MISWEIGHED);
  check("a weight for each of the most names", weighs(CUE_SYMBOLS, CUE_MAX_WEIGHT, 1, CUE_SYMBOLS), CUE_TAKEN);

  /* rule 0 puts name 0 for name 1, rule 1 name 1 for itself */
  one_step();
  falls("a rule that stays as heavy", 1, 2, CUE_RISING, 1);
  falls("a rule that stays as heavy, the lowest", 2, 2, CUE_RISING, 0);
  falls("a rule that gets heavier", CUE_MAX_WEIGHT, 1, CUE_RISING, 0);
  falls("the list comes before the rules", 0, 1, CUE_MISWEIGHED, 0);
  words--;
  falls("the book comes before the list", 0, 1, CUE_SHORT, words);
  words -= 3;
  book[7] = 1;
  falls("a rule that falls", 1, 2, CUE_TAKEN, 0);
  tight("a cue of one step", 1, 1, 1);

  /* "higher of" weighs one; a placeholder may be on the right once */
  higher(1);
  falls("a built-in word on the right", 1, 2, CUE_TAKEN, 0);
  term[0] = 1;
  term[1] = CUE_LEVEL + 7;
  tight("a cue of a step and a built-in step", 2, 2, 0);
  falls("a built-in word as heavy as the left side", 1, 1, CUE_RISING, 0);
  higher(0);
  falls("a placeholder that is dropped", 1, 2, CUE_TAKEN, 0);
  higher(2);
  falls("a placeholder that is twice on the right", 1, CUE_MAX_WEIGHT, CUE_RISING, 0);

  /* of words that no list of a book names the built-in ones alone weigh; and the most that a sum is told */
  record[0] = CUE_LEVEL, record[1] = CUE_LEVEL + 255, record[2] = CUE_CURVE + 1, record[3] = CUE_VARIABLE, record[4] = 1, record[5] = 65535;
  check("words that weigh nothing", heaps(CUE_MAX_WEIGHT, 6), 0);
  record[1] = CUE_HIGHER_OF, record[2] = CUE_LOWER_OF, record[3] = CUE_CURVE, record[5] = 0;
  check("the three built-in words and a name", heaps(CUE_MAX_WEIGHT, 6), 3 + CUE_MAX_WEIGHT);
  check("no words", heaps(CUE_MAX_WEIGHT, 0), 0);
  for (i = 0; i < 65538; i++) record[i] = 0;
  check("the heaviest cue", heaps(CUE_MAX_WEIGHT, CUE_TERM_WORDS), 4096000);
  check("a sum that 32 bits hold", heaps(65535, 65536), 4294901760UL);
  check("the largest that they hold", heaps(65535, 65537), 4294967295UL);
  check("a sum that they do not hold", heaps(65535, 65538), 4294967295UL);
}

/* what the test by kinds answers, for a cue of so many words and a list of so many kinds */
static void kinded(const char *what, size_t term_words, size_t list_words, uint32_t number, size_t place) {
  cue_answer a = cue_test_kinds(book, words, term, term_words, list, list_words);
  check(what, a.number, number);
  check(what, a.place, place);
  check(what, a.steps, 0);
}

/* 02, F-8: the test by kinds */
static void kinds(void) {
  size_t i;
  /* the most names, each with the most arguments, and no rules; the cue is a level */
  words = 0;
  put(CUE_SYMBOLS);
  for (i = 0; i < CUE_SYMBOLS; i++) put(CUE_ARGUMENTS);
  put(CUE_SYMBOLS);
  for (i = 0; i < CUE_SYMBOLS; i++) put(0);
  put(0);
  term[0] = CUE_LEVEL;
  for (i = 0; i <= CUE_KINDS_WORDS; i++) list[i] = CUE_MAX_KIND;
  kinded("the longest list of kinds", 1, CUE_KINDS_WORDS, CUE_TAKEN, 0);
  kinded("a list of kinds too long", 1, CUE_KINDS_WORDS + 1, CUE_MISKINDED, 0);
  kinded("a kind too few", 1, CUE_KINDS_WORDS - 1, CUE_MISKINDED, 0);
  kinded("no kinds", 1, 0, CUE_MISKINDED, 0);
  list[CUE_KINDS_WORDS - 1]++;
  kinded("a kind too large", 1, CUE_KINDS_WORDS, CUE_MISKINDED, 0);

  /* name 1 of one argument, a level, becomes "higher of" that argument twice: kinds of name 0, of name 1 and of its argument */
  higher(2);
  list[0] = 1, list[1] = 0, list[2] = 0;
  term[0] = 1, term[1] = CUE_LEVEL + 7;
  kinded("a rule and a cue that pass", 2, 3, CUE_TAKEN, 0);
  term[1] = 0;
  kinded("a cue with an argument of another kind", 2, 3, CUE_ILL_CUE, 0);
  kinded("a cue that ends early", 1, 3, CUE_BROKEN, 1);
  list[2] = 1;
  kinded("a placeholder with two kinds, before the cue", 1, 3, CUE_ILL_RULE, 0);
  words--;
  kinded("the book comes before the list", 1, 2, CUE_SHORT, words);
}

int main(void) {
  static const char *const table[] = {"taken",      "short",   "count", "entry",    "stranger", "ragged",    "headless", "stray", "surplus",
                                      "broken cue", "cramped", "spent", "overlong", "nested",   "unsettled", "builtin",
                                      "full",       "pair",    "weights", "rising",  "kinds",    "ill rule",  "ill cue"};
  size_t i;
  check("the version", CUE_VERSION, CUE_VERSION_MAJOR * 65536UL + CUE_VERSION_MINOR);
  check("the archive's version", cue_version(), CUE_VERSION);

  make(CUE_SYMBOLS, CUE_ARGUMENTS, CUE_ENTRIES, 0, 1);
  check("the most names, arguments and entries", reads(), CUE_TAKEN);
  make(CUE_SYMBOLS + 1, 0, 0, 0, 1);
  check("a name too many", reads(), CUE_COUNT);
  make(3, CUE_ARGUMENTS + 1, 0, 0, 1);
  check("an argument too many", reads(), CUE_COUNT);
  make(3, 0, CUE_ENTRIES + 1, 0, 1);
  check("an entry too many", reads(), CUE_COUNT);
  make(3, 0, 0, CUE_RULES, CUE_SIDE_WORDS);
  check("the most rules, of the longest sides", reads(), CUE_TAKEN);
  make(3, 0, 0, CUE_RULES + 1, 1);
  check("a rule too many", reads(), CUE_COUNT);
  make(3, 0, 0, 1, CUE_SIDE_WORDS + 1);
  check("a side too long", reads(), CUE_COUNT);
  make(CUE_SYMBOLS, 0, CUE_ENTRIES, CUE_RULES, CUE_SIDE_WORDS);
  check("the longest book", reads(), CUE_TAKEN);
  check("its words", words, CUE_BOOK_WORDS);

  variables(CUE_VARIABLES);
  check("the most placeholders", reads(), CUE_TAKEN);
  variables(CUE_VARIABLES + 1);
  check("a placeholder too many", reads(), CUE_STRANGER);

  /* a cue of the most words, in buffers of the least */
  make(3, 0, 0, 0, 1);
  for (i = 0; i < CUE_TERM_WORDS; i++) term[i] = 1;
  term[CUE_TERM_WORDS - 1] = 2;
  check("the longest cue", cue_expand(book, words, term, CUE_TERM_WORDS, 0, out, CUE_TERM_WORDS, work, CUE_WORK_WORDS).number, CUE_TAKEN);
  check("a cramped answer buffer", cue_expand(book, words, term, 1, 0, out, CUE_TERM_WORDS - 1, work, CUE_WORK_WORDS).number, CUE_CRAMPED);
  lends("a cramped work buffer", CUE_WORK_WORDS - 1, CUE_CRAMPED, 0);
  lends("the work buffer", CUE_WORK_WORDS, CUE_TAKEN, CUE_WORK_WORDS);
  lends("a work buffer with a word to spare", CUE_WORK_WORDS + 1, CUE_TAKEN, CUE_WORK_WORDS);
  check("a row for the words, one for their lengths, one for the levels", CUE_WORK_WORDS, 3 * CUE_TERM_WORDS);
  term[CUE_TERM_WORDS - 1] = 1;
  term[CUE_TERM_WORDS] = 2;
  check("a cue too long", cue_check_term(book, words, term, CUE_TERM_WORDS + 1).number, CUE_BROKEN);

  /* name 1 evaluates its argument: so many levels, and one more */
  words = 0;
  put(3), put(0), put(1), put(0), put(3), put(0), put(1), put(1), put(0), put(0);
  term[CUE_LEVELS - 1] = 2;
  check("the deepest level", cue_expand(book, words, term, CUE_LEVELS, 0, out, CUE_TERM_WORDS, work, CUE_WORK_WORDS).number, CUE_TAKEN);
  term[CUE_LEVELS - 1] = 1;
  term[CUE_LEVELS] = 2;
  check("a level too deep", cue_expand(book, words, term, CUE_LEVELS + 1, 0, out, CUE_TERM_WORDS, work, CUE_WORK_WORDS).number, CUE_NESTED);

  levels();
  records();
  weights();
  kinds();

  /* the words of 01's table, by the numbers' names */
  for (i = 0; i < sizeof table / sizeof table[0]; i++) check(table[i], strcmp(cue_word((uint32_t)i), table[i]) == 0, 1);
  check("a number that is not in the table", strcmp(cue_word(CUE_ILL_CUE + 1), "?") == 0, 1);
  if (!wrong) printf("outside: the header's version, sizes, limits and words are those of the functions\n");
  return wrong;
}
