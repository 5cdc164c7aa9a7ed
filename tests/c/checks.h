/* Counts checks, and names each that fails. */
#ifndef CHECKS_H
#define CHECKS_H

#include <stdint.h>
#include <stdio.h>

typedef struct {
  unsigned passed;
  unsigned failed;
} checks;

static inline void check(checks *tally, const char *what, uint64_t found, uint64_t wanted) {
  if (found == wanted) {
    tally->passed++;
    return;
  }
  tally->failed++;
  printf("layout: %s: found %llu, wanted %llu\n", what, (unsigned long long)found, (unsigned long long)wanted);
}

/* As the header declares the structs. */
void check_header(checks *tally);

/* As the library reads its arguments, and as it writes its answers. */
void check_arguments(checks *tally);
void check_answers(checks *tally);
void check_axes(checks *tally);
void check_sheets(checks *tally);

/* Empty tables and texts may be NULL. */
void check_empty(checks *tally);

/* The longest moves and the farthest. */
void check_longest(checks *tally);

/* Programs that were written before a move had a start. */
void check_earlier(checks *tally);

/* Rows as counts. */
void check_rows_as_counts(checks *tally);

#endif
