/* The entries for a move. */
#include "longest.h"

#include <math.h>

static int64_t rows[NITSWOLAN_MOST_REFERENCE];
static double forces[NITSWOLAN_MOST_FORCES];

void call_plan_move(void) {
  for (size_t k = 0; k < FOURTH_MOVES; k++) {
    CALL(nitswolan_plan_move(fourth_moves[k]));
  }
}

void call_plan_third(void) {
  for (size_t k = 0; k < THIRD_MOVES; k++) {
    CALL(nitswolan_plan_third(third_moves[k]));
  }
}

void call_sample_move(void) {
  for (size_t k = 0; k < FOURTH_MOVES * COSTLY_SAMPLES; k++) {
    CALL(nitswolan_sample_move(fourth_moves[k / COSTLY_SAMPLES], costly_samples[k % COSTLY_SAMPLES]));
  }
}

void call_sample_third(void) {
  for (size_t k = 0; k < THIRD_MOVES * COSTLY_SAMPLES; k++) {
    CALL(nitswolan_sample_third(third_moves[k / COSTLY_SAMPLES], costly_samples[k % COSTLY_SAMPLES]));
  }
}

typedef nitswolan_table_result (*fill_table)(nitswolan_move move, int64_t *table, size_t places);

/* The last call of a table is refused 8. */
static void call_fill(fill_table fill, const nitswolan_move *moves, size_t count) {
  for (size_t k = 0; k < count; k++) {
    CALL(fill(moves[k], rows, LENGTH(rows)));
  }
  CALL(fill(moves[COSTLIEST], rows, 0));
}

void call_fill_positions(void) {
  call_fill(nitswolan_fill_positions, fourth_moves, FOURTH_MOVES);
}

void call_fill_reference(void) {
  call_fill(nitswolan_fill_reference, fourth_moves, FOURTH_MOVES);
}

void call_fill_positions_third(void) {
  call_fill(nitswolan_fill_positions_third, third_moves, THIRD_MOVES);
}

void call_fill_reference_third(void) {
  call_fill(nitswolan_fill_reference_third, third_moves, THIRD_MOVES);
}

/* A filtered drive, which takes most; a rigid one; and one that is refused 10 by its last number. */
static const nitswolan_machine machines[] = {
  {3, 2.5, 0.25, 0.125, 0.75, 40},
  {3, 2.5, 0.25, 0.125, -0.0, 40},
  {0, 0, 0, 0, 0, NAN},
};

void call_fill_force(void) {
  for (size_t k = 0; k < FOURTH_MOVES * LENGTH(machines); k++) {
    CALL(nitswolan_fill_force(fourth_moves[k / LENGTH(machines)], machines[k % LENGTH(machines)], forces, LENGTH(forces)));
  }
  CALL(nitswolan_fill_force(fourth_moves[COSTLIEST], machines[0], forces, 0));
}
