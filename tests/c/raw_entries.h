/* The library's functions as machine code sees them, with no struct of the header: an argument by value is so many 8-byte words, and an
 * answer above 16 bytes is written where a hidden first argument points, which the function also returns. That is the calling
 * convention of x86-64 System V, for which the archive is built. */
#ifndef RAW_ENTRIES_H
#define RAW_ENTRIES_H

#ifndef __x86_64__
#error "the raw calls below are those of x86-64 System V"
#endif

#include "layout_table.h"
#include <stddef.h>
#include <stdint.h>
#include <string.h>

typedef struct {
  uint64_t words[MOVE_SIZE / 8];
} raw_move;

typedef struct {
  double words[MACHINE_SIZE / 8];
} raw_machine;

typedef struct {
  uint64_t words[TABLE_SIZE / 8];
} raw_table_result;

typedef struct {
  uint64_t words[AXES_SIZE / 8];
} raw_axes;

void *nitswolan_plan_move(void *answer, raw_move move);
void *nitswolan_sample_move(void *answer, raw_move move, uint64_t sample);
raw_table_result nitswolan_fill_positions(raw_move move, int64_t *table, size_t places);
raw_table_result nitswolan_fill_reference(raw_move move, int64_t *table, size_t places);
raw_table_result nitswolan_fill_force(raw_move move, raw_machine machine, double *table, size_t places);
void *nitswolan_plan_third(void *answer, raw_move move);
void *nitswolan_sample_third(void *answer, raw_move move, uint64_t sample);
raw_table_result nitswolan_fill_positions_third(raw_move move, int64_t *table, size_t places);
raw_table_result nitswolan_fill_reference_third(raw_move move, int64_t *table, size_t places);
void *nitswolan_plan_axes(void *answer, raw_axes axes);
void *nitswolan_sample_axes(void *answer, raw_axes axes, uint64_t sample);
void *nitswolan_read_sheet(void *answer, const uint8_t *text, size_t length);
size_t nitswolan_report(const uint8_t *text, size_t length, uint8_t *report);

/* A function that fills a table of whole numbers. */
typedef raw_table_result (*fill_table)(raw_move move, int64_t *table, size_t places);

/* The functions that the fourth order and the third have alike. */
typedef struct {
  void *(*plan)(void *answer, raw_move move);
  void *(*sample)(void *answer, raw_move move, uint64_t sample);
  fill_table fill_positions;
  fill_table fill_reference;
} order;

static const order fourth = {nitswolan_plan_move, nitswolan_sample_move, nitswolan_fill_positions, nitswolan_fill_reference};
static const order third = {
  nitswolan_plan_third,
  nitswolan_sample_third,
  nitswolan_fill_positions_third,
  nitswolan_fill_reference_third,
};

/* 2^40, the units in a count. */
#define G (UINT64_C(1) << 40)

/* The first move to check by: 8 counts in 8 samples, with snap G; in third order in 7 samples, with jerk G. Where a start is not listed,
 * here and elsewhere, it is 0. */
static inline raw_move first_move(void) {
  raw_move move = {{8, 2 * G, G, G, G}};
  return move;
}

/* The move of the axis at place k of a set, from 0. */
static inline void set_axis(raw_axes *axes, size_t k, raw_move move) {
  memcpy(axes->words + (AXES_MOVES + k * MOVE_SIZE) / 8, move.words, sizeof move.words);
}

#endif
