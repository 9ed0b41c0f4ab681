/*
 * Shows an expansion step by step, and keeps or replays its step record (02, F-3). It rewrites nothing itself: each line is what cue_replay
 * makes of one pair and the cue before it.
 *
 *     gcc -std=c99 -Iinclude tools/steps.c target/staticlib/libcue.a target/staticlib/libcue_replay.a -o target/steps
 */
#define _POSIX_C_SOURCE 200809L /* for stat and open: which file a name means, and whether it is free */
#include <errno.h>
#include <fcntl.h>
#include <stdio.h>
#include <string.h>
#include <sys/stat.h>

#include "cue.h"

#define TOOL "steps"
#include "files.h"

#define STEPS 65535 /* the most: the allowance in a cue file is one word */

static const char help[] =
    "steps [-o FILE] BOOK CUE    expands the cue, and prints its steps; -o writes their record to a file, but to none that is read\n"
    "steps BOOK CUE RECORD       replays a record, from anyone\n"
    "\n"
    "Files of words, low byte first, as tools/words packs them: BOOK and CUE are show.book and show.cue (the allowance, then the cue), RECORD\n"
    "has two words for each step: its index in the cue before it, and the rule's number. A line for each step tells these and the cue after\n"
    "it; the last line has the three numbers of the answer, with their word. A record counts its pairs from 0.\n"
    "Exit status: 0 taken; 1 any other number; 2 a file that can't be read or written, or bad usage.\n";

/* all the memory there is: a book, the allowance and a cue, a record; the cue as it is now; and what is lent to each call */
static uint16_t book[CUE_BOOK_WORDS];
static uint16_t cue[1 + CUE_TERM_WORDS];
static uint16_t record[2 * STEPS];
static uint16_t now[CUE_TERM_WORDS];
static uint16_t out[CUE_TERM_WORDS];
static uint16_t work[CUE_WORK_WORDS];
static size_t book_words, cue_words, record_words;

/* refuses to write where something else would be lost: a folder, a device, or a file that is read */
static void check_target(const char *path, char **files, int n) {
  struct stat to, from;
  int i;
  if (stat(path, &to) != 0) return;
  if (!S_ISREG(to.st_mode)) refuse(path, "it is no ordinary file, so nothing is written there");
  for (i = 0; i < n; i++) {
    if (stat(files[i], &from) != 0 || from.st_dev != to.st_dev || from.st_ino != to.st_ino) continue;
    refuse(path, "it is a file that is read: write to another");
  }
}

/* all of the words or nothing: first under a name of its own, which must be free */
static void save(const char *path, const uint16_t *words, size_t n) {
  char name[4096];
  FILE *f;
  size_t i;
  int to, failed;
  if (strlen(path) + sizeof ".new" > sizeof name) refuse(path, "its name is too long");
  sprintf(name, "%s.new", path);
  to = open(name, O_WRONLY | O_CREAT | O_EXCL, 0666);
  f = to < 0 ? NULL : fdopen(to, "wb");
  if (!f) refuse(name, strerror(errno));
  for (i = 0; i < n; i++) {
    putc(words[i] % 256, f);
    putc(words[i] / 256, f);
  }
  failed = ferror(f);
  if (fclose(f) == 0 && !failed && rename(name, path) == 0) return;
  remove(name);
  refuse(path, "it can't be written");
}

/* expands the cue: its answer, as a replay tells it, and the pairs of its steps in the record */
static cue_replayed expand(void) {
  cue_answer a = cue_expand_recorded(book, book_words, cue + 1, cue_words - 1, cue[0], out, CUE_TERM_WORDS, work, CUE_WORK_WORDS, record,
                                     2 * STEPS);
  cue_replayed r;
  r.number = a.number;
  r.place = a.place;
  r.steps = a.steps;
  record_words = 2 * r.steps;
  return r;
}

/* replays `n` words of the record from `at` on, over a cue */
static cue_replayed replay(const uint16_t *term, size_t term_words, size_t at, size_t n) {
  return cue_replay(book, book_words, term, term_words, record + at, n, out, CUE_TERM_WORDS, work, CUE_WORK_WORDS);
}

/* a line for each step, each replayed by itself over the cue that the one before it left */
static void print_steps(size_t steps) {
  size_t k, i, n = cue_words - 1;
  memcpy(now, cue + 1, n * sizeof now[0]);
  printf("step index rule  cue after it\n");
  for (k = 0; k < steps; k++) {
    cue_replayed one = replay(now, n, 2 * k, 2);
    if (one.number != CUE_TAKEN) refuse("a step by itself", cue_word(one.number));
    n = one.place;
    memcpy(now, out, n * sizeof now[0]);
    printf("%4lu %5u %4u ", (unsigned long)k + 1, (unsigned)record[2 * k], (unsigned)record[2 * k + 1]);
    for (i = 0; i < n; i++) printf(" %u", (unsigned)now[i]);
    printf("\n");
  }
}

/* the pair at which a replay ended, if it did */
static void print_refused(cue_replayed r) {
  size_t at = 2 * r.steps;
  if (r.number != CUE_NO_STEP && r.number != CUE_OVERLONG) return;
  printf("pair %lu: index %u, ", (unsigned long)r.steps, (unsigned)record[at]);
  if (at + 1 == record_words) printf("and no rule: it is half\n");
  else printf("rule %u: %s\n", (unsigned)record[at + 1], r.number == CUE_NO_STEP ? "no step there" : "the cue would be too long");
}

int main(int argc, char **argv) {
  const char *to = NULL;
  cue_replayed r;
  if (argc == 2 && strcmp(argv[1], "--help") == 0) return finish(fputs(help, stdout) == EOF);
  if (argc == 5 && strcmp(argv[1], "-o") == 0) {
    to = argv[2];
    argv += 2;
    argc -= 2;
  }
  if (argc < 3 || argc > (to ? 3 : 4) || argv[1][0] == '-') {
    fprintf(stderr, "steps: usage: steps [-o FILE] BOOK CUE | steps BOOK CUE RECORD | steps --help\n");
    return 2;
  }
  book_words = load(argv[1], book, CUE_BOOK_WORDS);
  cue_words = load(argv[2], cue, 1 + CUE_TERM_WORDS);
  if (cue_words == 0) refuse(argv[2], "its first word, the allowance, is missing");
  if (to) check_target(to, argv + 1, argc - 1);
  if (argc == 4) {
    record_words = load(argv[3], record, 2 * STEPS);
    r = replay(cue + 1, cue_words - 1, 0, record_words);
  } else {
    r = expand();
  }
  if (to) save(to, record, record_words);
  print_steps(r.steps);
  if (argc == 4) print_refused(r);
  printf("number place steps\n%lu %lu %lu %s\n", (unsigned long)r.number, (unsigned long)r.place, (unsigned long)r.steps, cue_word(r.number));
  return finish(r.number != CUE_TAKEN);
}
