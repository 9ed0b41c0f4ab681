/* For the tools: files of words, low byte first. A tool first defines TOOL, its name, with which it starts what it says of a file. */
#ifndef FILES_H
#define FILES_H

#include <errno.h>
#include <stdint.h>
#include <stdio.h>
#include <stdlib.h>
#include <string.h>

static void refuse(const char *path, const char *why) {
  fprintf(stderr, TOOL ": %s: %s\n", path, why);
  exit(2);
}

/* how many words a file has, which go where `words` has room */
static size_t load(const char *path, uint16_t *words, size_t room) {
  FILE *f = fopen(path, "rb");
  size_t n = 0;
  int low, high = 0;
  if (!f) refuse(path, strerror(errno));
  while ((low = getc(f)) != EOF && (high = getc(f)) != EOF) {
    if (n == room) refuse(path, "it has too many words");
    words[n++] = (uint16_t)(low + 256 * high);
  }
  if (ferror(f)) refuse(path, strerror(errno));
  if (low != EOF) refuse(path, "it has an odd number of bytes, so it is no file of words");
  fclose(f);
  return n;
}

/* a tool's exit status, if all that it printed got through */
static int finish(int status) {
  if (fflush(stdout) != 0 || ferror(stdout)) refuse("the standard output", "it can't be written");
  return status;
}

#endif
