/* The entries for a set of axes. */
#include "longest.h"

enum { SETS = 8 };

/* An axis at rest. */
static const nitswolan_move rest = {0, 1, 1, 1, 1, 0};

/* An axis of set k. In set 0, the costliest, every axis is the costliest move: each is planned, and then raised. */
static nitswolan_move axis(size_t k, size_t place) {
  const nitswolan_move costliest = fourth_moves[COSTLIEST];
  const nitswolan_move shortest = fourth_moves[SHORTEST];
  const int last = place + 1 == NITSWOLAN_MOST_AXES;
  switch (k) {
  case 1: return last ? fourth_moves[COSTLIEST_REFUSED] : costliest; /* seven are planned for nothing */
  case 2: return last ? rest : costliest;
  case 3: return place == 0 ? rest : costliest;
  case 4: return fourth_moves[DIFFERENT + place];
  case 5: return last ? costliest : shortest; /* seven are raised from N of 8 */
  case 6: return last ? shortest : rest;
  case 7: return rest;
  default: return costliest;
  }
}

static nitswolan_axes set(size_t k) {
  nitswolan_axes axes;
  axes.count = NITSWOLAN_MOST_AXES;
  for (size_t place = 0; place < NITSWOLAN_MOST_AXES; place++) {
    axes.moves[place] = axis(k, place);
  }
  return axes;
}

void call_plan_axes(void) {
  nitswolan_axes axes = set(0);
  for (size_t k = 0; k < SETS; k++) {
    axes = set(k);
    CALL(nitswolan_plan_axes(axes));
  }
  axes.count = NITSWOLAN_MOST_AXES + 1;
  CALL(nitswolan_plan_axes(axes));
}

void call_sample_axes(void) {
  nitswolan_axes axes = set(0);
  for (size_t k = 0; k < SETS * COSTLY_SAMPLES; k++) {
    axes = set(k / COSTLY_SAMPLES);
    CALL(nitswolan_sample_axes(axes, costly_samples[k % COSTLY_SAMPLES]));
  }
  axes.count = NITSWOLAN_MOST_AXES + 1;
  CALL(nitswolan_sample_axes(axes, 0));
}
