/* The panels: what each shows, and how it is scaled. */
#include "drawing.h"

enum { PANELS = 5 };

/* A panel whose bound is above this many times the peak is scaled by the peak: scaled by the bound its curve would be flat. */
enum { MOST_TIMES_PEAK = 3 };

static int64_t position_of(const nitswolan_sample_result *sample) { return sample->position; }
static int64_t velocity_of(const nitswolan_sample_result *sample) { return sample->velocity; }
static int64_t acceleration_of(const nitswolan_sample_result *sample) { return sample->acceleration; }
static int64_t jerk_of(const nitswolan_sample_result *sample) { return sample->jerk; }
static int64_t snap_of(const nitswolan_sample_result *sample) { return sample->snap; }

/* Position and velocity have the sign of the displacement; the others have both signs. The full size is found from the samples. */
static panel panel_of(const nitswolan_move *move, int number) {
  const int sign = move->displacement < 0 ? -1 : 1;
  const int64_t start = move->start * NITSWOLAN_UNITS_PER_COUNT;
  const int64_t distance = sign * move->displacement * NITSWOLAN_UNITS_PER_COUNT;
  const panel panels[PANELS] = {
    {"position", "counts", NULL, TOP, 116, RUNNING, sign, 0, position_of, start, distance, 0},
    {"velocity", "counts/sample", "V", 210, 116, RUNNING, sign, 0, velocity_of, 0, (int64_t)move->velocity, 0},
    {"acceleration", "counts/sample²", "A", 344, 136, RUNNING, 1, 1, acceleration_of, 0, (int64_t)move->acceleration, 0},
    {"jerk", "counts/sample³", "J", 498, 136, RUNNING, 1, 1, jerk_of, 0, (int64_t)move->jerk, 0},
    {"snap", "counts/sample⁴", "S", BOTTOM - 136, 136, HELD, 1, 1, snap_of, 0, (int64_t)move->snap, 0},
  };
  return panels[number];
}

/* The largest size that the panel shows, from its origin. */
static int64_t peak_of(const panel *shown, const profile *drawn) {
  int64_t peak = 0;
  for (uint64_t k = 0; k <= drawn->plan.samples; k++) {
    const int64_t value = shown->value(&drawn->samples[k]) - shown->origin;
    const int64_t size = value < 0 ? -value : value;
    peak = size > peak ? size : peak;
  }
  return peak;
}

/* The peak of an accepted move is never 0 and never above the bound. */
static int64_t full_size(int64_t peak, int64_t bound) {
  return bound > peak && bound <= MOST_TIMES_PEAK * peak ? bound : peak;
}

void draw_panels(const profile *drawn) {
  for (int number = 0; number < PANELS; number++) {
    panel shown = panel_of(&drawn->move, number);
    shown.full = full_size(peak_of(&shown, drawn), shown.bound);
    draw_frame(&shown);
    draw_bounds(&shown);
    draw_curve(&shown, drawn);
  }
}
