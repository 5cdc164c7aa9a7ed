/* Shows which bytes a call writes. Each call is made twice, over bytes 0x55 and over bytes 0xAA: a byte that is alike afterwards was
 * written, and no other byte was. */
#ifndef WRITTEN_H
#define WRITTEN_H

#include "checks.h"
#include "layout_table.h"
#include <stddef.h>
#include <string.h>

enum { GUARD = 64, AREA_WORDS = (GUARD + SHEET_SIZE + GUARD) / 8 };

typedef struct {
  uint64_t first[AREA_WORDS];
  uint64_t second[AREA_WORDS];
} areas;

static inline void clear_areas(areas *both) {
  memset(both->first, 0x55, sizeof both->first);
  memset(both->second, 0xAA, sizeof both->second);
}

/* Calls an entry for two answers, one in each area. After the entry come the arguments that it has besides. */
#define CALL_TWICE(both, entry, ...)                \
  do {                                              \
    clear_areas(both);                              \
    entry((both)->first + GUARD / 8, __VA_ARGS__);  \
    entry((both)->second + GUARD / 8, __VA_ARGS__); \
  } while (0)

/* The bytes written must be those from the guard on, `size` of them. */
static inline void check_extent(checks *tally, const char *what, const areas *both, size_t size) {
  const unsigned char *first = (const unsigned char *)both->first;
  const unsigned char *second = (const unsigned char *)both->second;
  size_t misplaced = 0;
  for (size_t k = 0; k < sizeof both->first; k++) {
    const int written = first[k] == second[k];
    const int wanted = k >= GUARD && k < GUARD + size;
    misplaced += written != wanted;
  }
  check(tally, what, misplaced, 0);
}

static inline uint64_t word(const areas *both, size_t offset) {
  return both->first[(GUARD + offset) / 8];
}

/* The bytes of an answer from `start` up to `end` must be 0. */
static inline void check_zeros(checks *tally, const char *what, const areas *both, size_t start, size_t end) {
  uint64_t others = 0;
  for (size_t k = start; k < end; k += 8) {
    others |= word(both, k);
  }
  check(tally, what, others, 0);
}

#endif
