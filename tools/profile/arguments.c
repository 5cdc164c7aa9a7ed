/* The arguments. Numbers are read strictly: blanks or a plus sign, which strtoll would let pass, are most often slips of the caller. */
#include "profile.h"

#include <stdio.h>
#include <string.h>

/* The program's name, what to write, and the six numbers of a move. */
enum { ARGUMENTS = 8 };

/* Digits alone, at least one, whose number is at most `most`. */
static int read_digits(const char *text, uint64_t most, uint64_t *number) {
  uint64_t sum = 0;
  if (*text == '\0') {
    return 0;
  }
  for (; *text != '\0'; text++) {
    const int is_digit = *text >= '0' && *text <= '9';
    const uint64_t digit = is_digit ? (uint64_t)(*text - '0') : 0;
    if (!is_digit || sum > (most - digit) / 10) {
      return 0;
    }
    sum = 10 * sum + digit;
  }
  *number = sum;
  return 1;
}

static int read_bound(const char *name, const char *text, uint64_t *bound) {
  if (read_digits(text, UINT64_MAX, bound)) {
    return 1;
  }
  fprintf(stderr, "profile: %s is not a whole number from 0 to 18446744073709551615\n", name);
  return 0;
}

/* The size of INT64_MIN is one more than fits, so a negative number is made from its size less 1. */
static int read_counts(const char *name, const char *text, int64_t *counts) {
  uint64_t size = 0;
  if (*text != '-' && read_digits(text, INT64_MAX, &size)) {
    *counts = (int64_t)size;
    return 1;
  }
  if (*text == '-' && read_digits(text + 1, (uint64_t)INT64_MAX + 1, &size)) {
    *counts = size == 0 ? 0 : -(int64_t)(size - 1) - 1;
    return 1;
  }
  fprintf(stderr, "profile: %s is not a whole number from -9223372036854775808 to 9223372036854775807\n", name);
  return 0;
}

static int read_move(char **texts, nitswolan_move *move) {
  return read_counts("X", texts[0], &move->displacement) && read_bound("V", texts[1], &move->velocity) &&
         read_bound("A", texts[2], &move->acceleration) && read_bound("J", texts[3], &move->jerk) &&
         read_bound("S", texts[4], &move->snap) && read_counts("START", texts[5], &move->start);
}

int read_arguments(int count, char **texts, request *asked) {
  if (count < 2 || (strcmp(texts[1], "figure") != 0 && strcmp(texts[1], "samples") != 0)) {
    fprintf(stderr, "profile: the first argument is neither figure nor samples\n");
    return 0;
  }
  if (count != ARGUMENTS) {
    fprintf(stderr, "profile: after %s come six numbers, X V A J S START, but there are %d\n", texts[1], count - 2);
    return 0;
  }
  asked->kind = strcmp(texts[1], "figure") == 0 ? FIGURE : SAMPLES;
  return read_move(texts + 2, &asked->move);
}
