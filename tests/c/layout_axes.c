/* Where the library reads each field of a set of axes, and where it writes each field of its plans and samples. */
#include "wanted.h"

enum { SAMPLES = 18 };

/* Where the axis at place k starts. */
static int64_t start_of(size_t k) {
  return 3 * (int64_t)k - 10;
}

/* Eight axes: the sixth move to check by at one place, and at each other place k, from 0, a move of -k counts; so that at place 0 is at
 * rest. These need 8 to 11 samples alone. */
static raw_axes eight_axes(size_t sixth) {
  raw_axes axes;
  axes.words[AXES_COUNT / 8] = MOST_AXES;
  for (size_t k = 0; k < MOST_AXES; k++) {
    const raw_move other = {{-(uint64_t)k, G, G, G, G}};
    raw_move axis = k == sixth ? sixth_move() : other;
    axis.words[MOVE_START / 8] = (uint64_t)start_of(k);
    set_axis(&axes, k, axis);
  }
  return axes;
}

/* With a 1, b 1 and c 2, an e of 14 makes 18 samples. */
static wanted_plan wanted_at(size_t k, size_t sixth) {
  const wanted_plan rest = {0, 0, 0, 0, 0, 0};
  const wanted_plan raised = {1, 1, 2, 14, k * G / 28, k * G % 28};
  return k == sixth ? sixth_plan() : k == 0 ? rest : raised;
}

static int64_t snap_at(size_t k, size_t sixth, uint64_t sample) {
  static const int raised[SAMPLES + 1] = {1, -1, -1, 1, 0, 0, 0, 0, 0, 0, 0, 0, 0, 0, -1, 1, 1, -1, 0};
  return (k == sixth ? sixth_signs[sample] : -raised[sample]) * (int64_t)wanted_at(k, sixth).snap;
}

static void check_plans(checks *tally, areas *both, size_t sixth) {
  CALL_TWICE(both, nitswolan_plan_axes, eight_axes(sixth));
  check_extent(tally, "bytes of the plans of a set", both, AXES_PLAN_SIZE);
  check(tally, "plans.refusal", word(both, AXES_PLAN_REFUSAL), 0);
  check(tally, "plans.place", word(both, AXES_PLAN_PLACE), 0);
  check(tally, "plans.samples", word(both, AXES_PLAN_SAMPLES), SAMPLES);
  for (size_t k = 0; k < MOST_AXES; k++) {
    check_plan_at(tally, both, AXES_PLAN_PLANS + k * PLAN_SIZE, wanted_at(k, sixth));
  }
}

static void check_samples(checks *tally, areas *both, size_t sixth) {
  wanted_sample at[MOST_AXES];
  for (size_t k = 0; k < MOST_AXES; k++) {
    at[k] = wanted_from(start_of(k));
  }
  for (uint64_t sample = 0; sample <= SAMPLES; sample++) {
    CALL_TWICE(both, nitswolan_sample_axes, eight_axes(sixth), sample);
    check_extent(tally, "bytes of the samples of a set", both, AXES_SAMPLE_SIZE);
    check(tally, "samples.refusal", word(both, AXES_SAMPLE_REFUSAL), 0);
    check(tally, "samples.place", word(both, AXES_SAMPLE_PLACE), 0);
    for (size_t k = 0; k < MOST_AXES; k++) {
      at[k].snap = snap_at(k, sixth, sample);
      check_sample_at(tally, both, AXES_SAMPLE_VALUES + k * SAMPLE_SIZE, at[k]);
      step(&at[k]);
    }
  }
}

/* A set that is refused, by its plans and at sample 0. */
static void check_refusal(checks *tally, areas *both, raw_axes axes, uint64_t refusal, uint64_t place) {
  CALL_TWICE(both, nitswolan_plan_axes, axes);
  check_extent(tally, "bytes of refused plans", both, AXES_PLAN_SIZE);
  check(tally, "plans.refusal", word(both, AXES_PLAN_REFUSAL), refusal);
  check(tally, "plans.place", word(both, AXES_PLAN_PLACE), place);
  check_zeros(tally, "the rest of refused plans", both, AXES_PLAN_SAMPLES, AXES_PLAN_SIZE);
  CALL_TWICE(both, nitswolan_sample_axes, axes, 0);
  check_extent(tally, "bytes of refused samples", both, AXES_SAMPLE_SIZE);
  check(tally, "samples.refusal", word(both, AXES_SAMPLE_REFUSAL), refusal);
  check(tally, "samples.place", word(both, AXES_SAMPLE_PLACE), place);
  check_zeros(tally, "the rest of refused samples", both, AXES_SAMPLE_VALUES, AXES_SAMPLE_SIZE);
}

/* Each field of the axis at place k is changed alone, and that axis is named. */
static void check_fields(checks *tally, areas *both, size_t k) {
  static const size_t fields[] = {MOVE_DISPLACEMENT, MOVE_VELOCITY, MOVE_ACCELERATION, MOVE_JERK, MOVE_SNAP, MOVE_START};
  static const uint64_t refusals[] = {2, 3, 4, 5, 6, 14};
  for (size_t field = 0; field < sizeof fields / sizeof *fields; field++) {
    raw_axes axes = eight_axes(0);
    axes.words[(AXES_MOVES + k * MOVE_SIZE + fields[field]) / 8] = UINT64_C(1) << 62;
    check_refusal(tally, both, axes, refusals[field], k + 1);
  }
}

/* At rest, the axis at place k is refused for each bound that is out of range, and for its start. */
static void check_rest(checks *tally, areas *both, size_t k) {
  static const size_t fields[] = {MOVE_VELOCITY, MOVE_ACCELERATION, MOVE_JERK, MOVE_SNAP, MOVE_START};
  static const uint64_t refusals[] = {3, 4, 5, 6, 14};
  static const uint64_t wrong[] = {0, (UINT64_C(1) << 50) + 1};
  static const uint64_t outside[] = {1048577, (uint64_t)INT64_C(-1048577)};
  for (size_t field = 0; field < sizeof fields / sizeof *fields; field++) {
    for (size_t edge = 0; edge < sizeof wrong / sizeof *wrong; edge++) {
      raw_axes axes = eight_axes(0);
      set_axis(&axes, k, (raw_move){{0, G, G, G, G}});
      axes.words[(AXES_MOVES + k * MOVE_SIZE + fields[field]) / 8] = fields[field] == MOVE_START ? outside[edge] : wrong[edge];
      check_refusal(tally, both, axes, refusals[field], k + 1);
    }
  }
}

/* With every axis at rest the set is refused, whatever the bounds and the starts are. */
static void check_all_at_rest(checks *tally, areas *both) {
  static const uint64_t bounds[] = {G, 0, (UINT64_C(1) << 50) + 1};
  for (size_t k = 0; k < sizeof bounds / sizeof *bounds; k++) {
    const uint64_t bound = bounds[k];
    raw_axes axes = eight_axes(0);
    axes.words[AXES_COUNT / 8] = 2;
    set_axis(&axes, 0, (raw_move){{0, bound, bound, bound, bound, bound}});
    set_axis(&axes, 1, (raw_move){{0, bound, bound, bound, bound, bound}});
    check_refusal(tally, both, axes, 1, 0);
  }
}

static void check_counts(checks *tally, areas *both) {
  static const uint64_t counts[] = {0, MOST_AXES + 1, UINT64_MAX};
  for (size_t k = 0; k < sizeof counts / sizeof *counts; k++) {
    raw_axes axes = eight_axes(0);
    axes.words[AXES_COUNT / 8] = counts[k];
    check_refusal(tally, both, axes, 13, 0);
  }
}

/* The moves after the count, all of them `later`, are not read. */
static void check_few(checks *tally, areas *both, size_t count, raw_move later) {
  raw_axes axes = eight_axes(0);
  axes.words[AXES_COUNT / 8] = count;
  for (size_t k = count; k < MOST_AXES; k++) {
    set_axis(&axes, k, later);
  }
  CALL_TWICE(both, nitswolan_plan_axes, axes);
  check_extent(tally, "bytes of a few plans", both, AXES_PLAN_SIZE);
  check(tally, "plans.refusal", word(both, AXES_PLAN_REFUSAL), 0);
  check(tally, "plans.samples", word(both, AXES_PLAN_SAMPLES), SAMPLES);
  check_plan_at(tally, both, AXES_PLAN_PLANS, sixth_plan());
  check_zeros(tally, "plans after the count", both, AXES_PLAN_PLANS + count * PLAN_SIZE, AXES_PLAN_SIZE);
  CALL_TWICE(both, nitswolan_sample_axes, axes, SAMPLES / 2);
  check_extent(tally, "bytes of a few samples", both, AXES_SAMPLE_SIZE);
  check(tally, "samples.refusal", word(both, AXES_SAMPLE_REFUSAL), 0);
  check_zeros(tally, "samples after the count", both, AXES_SAMPLE_VALUES + count * SAMPLE_SIZE, AXES_SAMPLE_SIZE);
  CALL_TWICE(both, nitswolan_sample_axes, axes, SAMPLES + 1);
  check(tally, "samples.refusal", word(both, AXES_SAMPLE_REFUSAL), 9);
  check_zeros(tally, "the rest past the end", both, AXES_SAMPLE_PLACE, AXES_SAMPLE_SIZE);
}

void check_axes(checks *tally) {
  /* 4,096 samples, and one more, for which it would be refused; and an end outside the span. */
  const raw_move longer = {{4092, G, G, G, G}};
  const raw_move too_long = {{4093, G, G, G, G}};
  const raw_move outside = {{8, G, G, G, G, 1048576}};
  areas both;
  for (size_t k = 0; k < MOST_AXES; k++) {
    check_plans(tally, &both, k);
    check_samples(tally, &both, k);
    check_fields(tally, &both, k);
    check_rest(tally, &both, k);
    check_few(tally, &both, k + 1, longer);
    check_few(tally, &both, k + 1, too_long);
    check_few(tally, &both, k + 1, outside);
  }
  check_all_at_rest(tally, &both);
  check_counts(tally, &both);
}
