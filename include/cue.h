/*
 * The cue expander: show books, the order test, the tests by weights and by kinds, expansion, and the record of an expansion's steps.
 *
 * Two archives: cue_replay and cue_expand_retraced, which a support desk uses, are in libcue_replay.a, all other functions in libcue.a
 * (`tools/build cue cue_replay` writes them to target/staticlib/). A desk links libcue.a alone. Neither needs the other,
 * and a program may link both.
 *
 * Every slice is a pointer to its first word and the number of its words. A pointer must be valid even where the length is 0 (any
 * address of a uint16_t will do), and a buffer that is written (`out`, `work`, a record that is filled) must not overlap any other slice
 * of the call. Nothing else is asked of a caller: every other input gets one of the answers below. No function keeps a pointer, uses the
 * heap, or holds state between calls; each may be called from any thread.
 *
 * For a show a desk needs two of these functions: cue_test_strategies once for a book, and cue_expand for each cue. A theatre that wants
 * books which can't run on needs two more: cue_test_weights once for a book and its list of weights, and cue_weigh for a cue's allowance. That no
 * rule sends a colour to a dimmer, cue_test_kinds tells of a book and a cue. To see an expansion again, cue_expand_recorded tells its steps and
 * cue_replay follows them. cue_expand_checked, cue_expand_twice and cue_expand_retraced are what these promise together, as functions of their
 * own; cue_version tells the version, and the others look at a book or a cue.
 *
 * Names. The show designers' words and the words of the field stand side by side: a book is a rewrite system, a name a symbol, an
 * order a strategy, a placeholder a variable, a cue a term, a part of it a subterm, and a place a position.
 *
 * Porting. The target is x86-64 (System V ABI, ELF), with instructions up to SSE2; another needs another back end, and every figure measured
 * anew. SSE registers are used: save them in a task that can be interrupted. Where the table says that the red zone is used, functions keep
 * values in the 128 bytes below the stack pointer, as System V lets them: an interrupt handler that runs on the stack of the task which it
 * interrupts must leave those 128 bytes alone, or have a stack of its own. Code and constants only, no data and no bss: the archives link with
 * -nostdlib, where the program brings what they need. Each function stands in a section of its own: -Wl,--gc-sections leaves out what is
 * not called.
 *
 *   linked                                                  bytes   needs           red zone
 *   libcue.a                                               30,417   memset          used
 *   libcue.a, cue_test_strategies and cue_expand alone     18,018   memset          used
 *   libcue_replay.a                                        19,616   memset          used
 *
 * An expansion is lent 8 KB for the answer and 24 KB to work in. The stack that a call takes, read from the compiled archives with everything
 * that is called, is below 4,096 bytes for each function (`bash tests/stack.sh` measures it, and holds both tables to the archives):
 *
 *   function                archive             stack, bytes
 *   cue_version             libcue.a                       8
 *   cue_read                libcue.a                     424
 *   cue_shape_of            libcue.a                     424
 *   cue_check_term          libcue.a                     488
 *   cue_argument            libcue.a                     520
 *   cue_span                libcue.a                      16
 *   cue_first_match         libcue.a                   1,320
 *   cue_test_strategies     libcue.a                     536
 *   cue_test_weights        libcue.a                     536
 *   cue_weigh               libcue.a                       8
 *   cue_test_kinds          libcue.a                   3,264
 *   cue_expand              libcue.a                   2,304
 *   cue_expand_checked      libcue.a                   2,336
 *   cue_expand_twice        libcue.a                   2,336
 *   cue_expand_recorded     libcue.a                   2,304
 *   cue_replay              libcue_replay.a            2,256
 *   cue_expand_retraced     libcue_replay.a            3,968
 */
#ifndef CUE_H
#define CUE_H

#include <stddef.h>
#include <stdint.h>

#ifdef __cplusplus
extern "C" {
#endif

/*
 * The version: a change of what a function takes or answers, or of the archive that it is in, raises the first number, anything new the
 * second. Where CUE_VERSION is not what cue_version answers, this header is not that of libcue.a; before 4.0 an archive did not have
 * cue_version.
 */
#define CUE_VERSION_MAJOR 4
#define CUE_VERSION_MINOR 1
#define CUE_VERSION (CUE_VERSION_MAJOR * 65536UL + CUE_VERSION_MINOR)

/* Sizes, in words. */
#define CUE_TERM_WORDS 4096 /* the most words of a cue, and the least of an answer buffer */
#define CUE_WORK_WORDS 12288 /* the least words of a work buffer: 8,192 before version 3.0 */
#define CUE_BOOK_WORDS 21251 /* the longest book that can be accepted */
#define CUE_KINDS_WORDS 2304 /* the longest list of kinds that can be accepted */

/* Limits of a book and of an expansion. */
#define CUE_SYMBOLS 256 /* the most names of a book */
#define CUE_ARGUMENTS 8 /* the most arguments of a name */
#define CUE_ENTRIES 16 /* the most entries of an order */
#define CUE_RULES 128 /* the most rules of a book */
#define CUE_SIDE_WORDS 64 /* the most words of a rule's side */
#define CUE_VARIABLES 16 /* the most different placeholders of a rule */
#define CUE_VARIABLE 32768 /* placeholder k is the word 32768 + k */
#define CUE_LEVELS 64 /* the deepest level at which an argument is evaluated; the whole cue is level 1 */
#define CUE_MAX_WEIGHT 1000 /* the largest weight of a name */
#define CUE_MAX_KIND 63 /* the largest kind */

/*
 * Dimmer levels, and the built-in words for them. They may stand in cues and on both sides of rules, but a left side does not start with
 * one. Where both arguments of "higher of" or "lower of" are levels, a step puts one of them there; their order is 1 2 0. Where the argument
 * of "curve" is level n, a step puts there what the square law gives for it, level (n * n + 127) / 255, whole part; its order is 1 0.
 */
#define CUE_LEVEL 16384 /* dimmer level n, from 0 to 255, is the word 16384 + n */
#define CUE_HIGHER_OF 16640 /* two arguments: the larger level */
#define CUE_LOWER_OF 16641 /* two arguments: the smaller level */
#define CUE_CURVE 16642 /* one argument: the square law's level for its level */
#define CUE_HIGHER_RULE 128 /* the number of the rule by which "higher of" takes a step */
#define CUE_LOWER_RULE 129 /* and of that of "lower of" */
#define CUE_CURVE_RULE 130 /* and of that of "curve" */

/* The numbers of an answer. */
enum {
  CUE_TAKEN = 0,      /* accepted */
  CUE_SHORT = 1,      /* a word that the book needs is missing */
  CUE_COUNT = 2,      /* a count or length outside its range */
  CUE_ENTRY = 3,      /* an order entry above the argument count */
  CUE_STRANGER = 4,   /* a side's word is neither name nor placeholder */
  CUE_RAGGED = 5,     /* a side is complete too early, or not at its last word */
  CUE_HEADLESS = 6,   /* a left side starts with a placeholder */
  CUE_STRAY = 7,      /* a left placeholder is above the count of different ones before it, or a right one is not in the left */
  CUE_SURPLUS = 8,    /* words after the last rule */
  CUE_BROKEN = 9,     /* the cue is not whole */
  CUE_CRAMPED = 10,   /* answer buffer below 4,096 words, or work buffer below 12,288 */
  CUE_SPENT = 11,     /* one more step would pass the allowance */
  CUE_OVERLONG = 12,  /* the step would leave the whole cue above 4,096 words */
  CUE_NESTED = 13,    /* an argument would be opened from level 64 */
  CUE_UNSETTLED = 14, /* the order test failed */
  CUE_BUILTIN = 15,   /* a left side starts with a level or a built-in word */
  CUE_RECORD_FULL = 16, /* a step finds fewer than two words left in the record */
  CUE_NO_STEP = 17,   /* a pair of a record is half, or tells of no step */
  CUE_MISWEIGHED = 18, /* the list of weights does not have one weight from 1 to 1,000 for each name */
  CUE_RISING = 19,    /* a rule does not fall */
  CUE_MISKINDED = 20, /* the list of kinds does not have one kind from 0 to 63 for each name and each of its arguments */
  CUE_ILL_RULE = 21,  /* a rule's sides are not well-kinded with equal kind, or a placeholder has two kinds */
  CUE_ILL_CUE = 22    /* the cue is not well-kinded */
};

#if defined(__cplusplus) || (defined(__STDC_VERSION__) && __STDC_VERSION__ >= 199901L)
/* The word of a number in the table above, for a message; "?" for a number that is not in it. */
static inline const char *cue_word(uint32_t number) {
  static const char *const words[] = {"taken",   "short",      "count",   "entry", "stranger", "ragged", "headless", "stray",
                                      "surplus", "broken cue", "cramped", "spent", "overlong", "nested", "unsettled",
                                      "builtin", "full",       "pair",    "weights", "rising",  "kinds",  "ill rule", "ill cue"};
  return number < sizeof words / sizeof words[0] ? words[number] : "?";
}
#endif

/* Three numbers: one of the above, a place and the steps. What place and steps are is said at each function; where nothing is said, 0. */
typedef struct cue_answer {
  uint32_t number;
  size_t place;
  uint32_t steps;
} cue_answer;

/* Of an accepted book: how many names and rules it has, and the index of the word at which its first order and its first rule start. */
typedef struct cue_shape {
  size_t symbols;
  size_t strategies;
  size_t rules;
  size_t first_rule;
} cue_shape;

/* A part of the caller's own words: the index of its first word, and how many words it has. */
typedef struct cue_part {
  size_t start;
  size_t length;
} cue_part;

/*
 * A rule that fits, if found is 1: its number (from 0), the index in the book of its right side's first word, how many words the right
 * side has, and for each placeholder of the left side the index of the first word, and the number of words, of the argument that it
 * stands for; where the left side repeats it, of the first such argument: the others have the same words. Placeholders that the left side does
 * not have are 0 and 0. A built-in rule has number 128 to 130 and no right side in the
 * book (rhs and size are 0): word is the level that a step puts there, as a word of a cue; of any other rule it is 0. If found is 0, all
 * is 0. (`number` is a rule's here, and no number of the table.)
 */
typedef struct cue_match {
  uint32_t found;
  size_t number;
  size_t rhs;
  size_t size;
  size_t starts[CUE_VARIABLES];
  size_t lengths[CUE_VARIABLES];
  uint16_t word;
} cue_match;

/* The first number of the version times 65,536, and the second. */
uint32_t cue_version(void);

/*
 * Reads a book. 0: accepted, place is its length. 1 to 8, or 15: refused, place is the index of the word that was being read when the first
 * fault was met. For 1 that is the book's length. For 5 it is the first word too many or, where a side's words are used up and it is
 * still not complete, the word behind its last one.
 */
cue_answer cue_read(const uint16_t *book, size_t book_words);

/* The shape of an accepted book; of a refused one all 0. */
cue_shape cue_shape_of(const uint16_t *book, size_t book_words);

/*
 * Checks a cue against a book. 0: whole, place is its length. 1 to 8, or 15: the book is refused, as cue_read says. 9: place is the index of
 * the first word that can't stand there, or the cue's length if it ends early; no word can stand at index 4,096.
 */
cue_answer cue_check_term(const uint16_t *book, size_t book_words, const uint16_t *term, size_t term_words);

/*
 * Argument i, from 1, of the cue's first name: where it stands in the caller's own cue. start and length are 0 exactly if book or cue is
 * refused, or i is not 1 up to the name's argument count.
 */
cue_part cue_argument(const uint16_t *book, size_t book_words, const uint16_t *term, size_t term_words, size_t i);

/*
 * How many words the part at the front of ws takes: its first word with all its arguments. Where ws ends before that, all its words. The
 * argument counts are those that the book's words list, whether or not the book is accepted; of the words that it does not list "higher of"
 * and "lower of" have two arguments, "curve" has one, all others none.
 */
size_t cue_span(const uint16_t *book, size_t book_words, const uint16_t *ws, size_t ws_words);

/*
 * The lowest-numbered rule that fits the part at the front of ws, of the book or built in; words after that part do not count. Nothing is
 * found over a refused book.
 */
cue_match cue_first_match(const uint16_t *book, size_t book_words, const uint16_t *ws, size_t ws_words);

/*
 * The order test. 0: every name passes, so a cue that cue_expand hands back with 0 has no active place at which a rule fits. 1 to 8, or
 * 15: the book is refused, as cue_read says. 14: place is the lowest-numbered name that fails; every name before it passes, so orders can be mended
 * from the top of the book.
 */
cue_answer cue_test_strategies(const uint16_t *book, size_t book_words);

/*
 * The test by weights: whether a book can't run on. The list has a weight from 1 to 1,000 for each name of the book, name 0 first. A rule
 * falls if its left side's words weigh more in all than its right side's, and no placeholder is on the right more often than on the left. A
 * name weighs what the list says, a placeholder or a level nothing, "higher of", "lower of" and "curve" one each. So the built-in rules always fall.
 *
 *   number    place                        what it says
 *   0         0                            every rule falls
 *   1 to 8,   as cue_read                  the book is refused
 *   or 15
 *   18        0                            the list does not have one weight for each name, or a weight is not from 1 to 1,000
 *   19        the lowest rule that does    a rule does not fall
 *             not fall, from 0
 *
 * The book is checked first, then the list, then the rules. Where the answer is 0, each step makes the cue lighter: the steps of an
 * expansion, with a record or without one, are at most the first cue's weight less the answer's, and an allowance of the first cue's weight
 * (cue_weigh) is never answered with 11. 12, 13 and 16 may still come.
 */
cue_answer cue_test_weights(const uint16_t *book, size_t book_words, const uint16_t *weights, size_t weights_words);

/*
 * What the words of a cue weigh in all by such a list: the allowance of that promise. It looks at no book and refuses nothing: a name, which
 * is any word below CUE_LEVEL, weighs what the list says, nothing where it has no entry; the built-in words weigh one, levels, placeholders
 * and all others nothing, however long the list is. Where the sum is more than 32 bits hold, it is 4,294,967,295; of a whole cue, and a list
 * that cue_test_weights answers with 0, it is at most 4,096,000.
 */
uint32_t cue_weigh(const uint16_t *weights, size_t weights_words, const uint16_t *term, size_t term_words);

/*
 * The test by kinds: whether a book and a cue put each argument where its kind belongs. The list gives, name by name, name 0 first, the kind (0 to
 * 63) of the name's outcome, then of each of its arguments; levels, "higher of", "lower of" and "curve" are kind 0 throughout and not in the list.
 * A side, or a cue, is well-kinded if each argument's kind, which is that of its first word, is the one listed for its place. A placeholder's kind is
 * that of its place on the left. A rule passes if both sides are well-kinded with equal kind and each placeholder has one kind.
 *
 *   number    place                        what it says
 *   0         0                            every rule passes, and the cue is well-kinded
 *   1 to 8,   as cue_read                  the book is refused
 *   or 15
 *   20        0                            the list does not have 1 + its argument count kinds for each name, or a kind is above 63
 *   21        the lowest rule that         a rule fails
 *             fails, from 0
 *   9         as cue_check_term            the cue is not whole
 *   22        0                            the cue is not well-kinded
 *
 * They are checked in this order. Where the answer is 0, each step keeps the cue well-kinded, and its kind, with whatever rule that fits and wherever
 * it is taken: so the cue that an expansion hands back, with a record or without one, and where it is stopped the cue that it has reached, is
 * well-kinded and has the kind of the cue handed in. To test a book alone, hand over a level as the cue: it passes over every book. In the
 * benchmark (tests/bench, one core, with the older Rattle) the test took 0.1 milliseconds over the largest book, and 0.9 over the longest cues,
 * deep or wide.
 */
cue_answer cue_test_kinds(const uint16_t *book, size_t book_words, const uint16_t *term, size_t term_words, const uint16_t *kinds,
                          size_t kinds_words);

/*
 * Expands a cue over a book, with at most `limit` steps (the allowance).
 *
 * The allowance is the only bound on the time of a call, which can't be left and taken up again. In the benchmark (tests/bench, one core, with the
 * older Rattle) a step took 0.03 microseconds over a small cue, and 17 over a cue of 4,090 words that are all visited again for each step; longer
 * ones can be made.
 *
 *   number    place                        steps            out                                     work
 *   0         the answer's length, words   taken            the answer in its first words,          the first 12,288 words are
 *                                                           the rest unchanged                      zero, the rest unchanged
 *   10        0                            0                unchanged                               unchanged
 *   1 to 8,   as cue_read                  0                unchanged                               unchanged
 *   or 15
 *   9         as cue_check_term            0                unchanged                               unchanged
 *   11 to 13  0                            completed        unchanged                               the first 12,288 words are
 *                                                                                                   zero, the rest unchanged
 *
 * 10 (out below 4,096 words or work below 12,288) is checked first, then the book, then the cue. Neither buffer needs to be cleared before
 * the call. The book may fail the order test.
 *
 * While a cue is expanded, the work buffer holds beside each of its words the length of the part that starts there, so that a long argument
 * is not counted again whenever it is passed. With that much lent, cues and counts are those that 8,192 words gave before version 3.0.
 */
cue_answer cue_expand(const uint16_t *book, size_t book_words, const uint16_t *term, size_t term_words, uint32_t limit, uint16_t *out,
                      size_t out_words, uint16_t *work, size_t work_words);

/* The order test's answer and the expansion's. */
typedef struct cue_checked {
  cue_answer test;
  cue_answer answer;
} cue_checked;

/*
 * cue_test_strategies and cue_expand in one call, with what the two promise together. Where answer.number is 0, answer.steps steps lead
 * from the cue handed in to the one in out, none of them past 4,096 words; where test.number is 0 as well, no rule fits at an active
 * place of the answer, and it expands to itself in 0 steps. The buffers are as cue_expand leaves them.
 */
cue_checked cue_expand_checked(const uint16_t *book, size_t book_words, const uint16_t *term, size_t term_words, uint32_t limit,
                               uint16_t *out, size_t out_words, uint16_t *work, size_t work_words);

/* The order test's answer, and those of two expansions. */
typedef struct cue_twice {
  cue_answer test;
  cue_answer first;
  cue_answer second;
} cue_twice;

/*
 * cue_expand_checked, and the answer in out expanded once more with no step allowed, into `again` with the work buffer `spare`. Where
 * test.number and first.number are 0 and these two buffers are large enough, second is 0, the answer's length, 0 steps, and `again`
 * starts with the same words as out. Where first.number is not 0 there is no second expansion: second is first, and `again` and
 * `spare` are unchanged.
 */
cue_twice cue_expand_twice(const uint16_t *book, size_t book_words, const uint16_t *term, size_t term_words, uint32_t limit,
                           uint16_t *out, size_t out_words, uint16_t *work, size_t work_words, uint16_t *again, size_t again_words,
                           uint16_t *spare, size_t spare_words);

/*
 * cue_expand with a record: for each step two words, its index in the whole cue before it and the number of its rule (128 to 130 are the
 * built-in ones). The answer and the buffers are cue_expand's, with one more limit:
 *
 *   number    place                        steps            out                                     work
 *   16        0                            completed        unchanged                               as on 11
 *
 * 16 where a step finds fewer than two words left; at a step 11 is checked first, then 16, then 12. After any answer the record holds the
 * pairs of the steps that are reported, in their order from its first word on, and its other words are unchanged. A cue that takes no step
 * needs no room.
 */
cue_answer cue_expand_recorded(const uint16_t *book, size_t book_words, const uint16_t *term, size_t term_words, uint32_t limit,
                               uint16_t *out, size_t out_words, uint16_t *work, size_t work_words, uint16_t *record,
                               size_t record_words);

/* ---- libcue_replay.a: the two functions from here on are in it, and not in libcue.a. */

/* The three numbers of a replay. A record may hold more pairs than 32 bits tell. */
typedef struct cue_replayed {
  uint32_t number;
  size_t place;
  size_t steps;
} cue_replayed;

/*
 * Follows a record, from anyone, over a book from a first cue on, pair by pair. It is accepted exactly if each pair is whole, its index an
 * active place of the cue then, its rule the lowest that fits there, and no step leaves more than 4,096 words; the steps need not be in the
 * order in which cue_expand takes them, and neither an allowance nor a deepest level counts.
 *
 *   number    place                        steps            out                                     work
 *   0         the last cue's length        the pairs        the last cue in its first words,        the first 12,288 words are
 *                                                           the rest unchanged                      zero, the rest unchanged
 *   10, 1 to  as cue_expand                0                unchanged                               unchanged
 *   9, or 15
 *   17        the number of the first      completed        unchanged                               the first 12,288 words are
 *             pair that is wrong or half,                                                           zero, the rest unchanged
 *             from 0
 *   12        0                            completed        unchanged                               as on 17
 *
 * 10, the book and the cue are checked first, in this order; then each pair: 17 before 12. The record is only read.
 */
cue_replayed cue_replay(const uint16_t *book, size_t book_words, const uint16_t *term, size_t term_words, const uint16_t *record,
                        size_t record_words, uint16_t *out, size_t out_words, uint16_t *work, size_t work_words);

/* The answers of an expansion with a record, and of its replay. */
typedef struct cue_retraced {
  cue_answer answer;
  cue_replayed replay;
} cue_retraced;

/*
 * cue_expand_recorded, and its record, cut to its pairs, followed from the same cue on by cue_replay, into `again` with the work buffer
 * `spare`. Where answer.number is 0 and these two buffers are large enough, replay has the same three numbers and `again` starts with the
 * same words as out. Where answer.number is not 0 there is no replay: replay has the answer's three numbers, and `again` and `spare` are
 * unchanged.
 */
cue_retraced cue_expand_retraced(const uint16_t *book, size_t book_words, const uint16_t *term, size_t term_words, uint32_t limit,
                                 uint16_t *out, size_t out_words, uint16_t *work, size_t work_words, uint16_t *record,
                                 size_t record_words, uint16_t *again, size_t again_words, uint16_t *spare, size_t spare_words);

#ifdef __cplusplus
}
#endif

#endif
