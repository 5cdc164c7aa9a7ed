/* Moves as they were written before they had a start: it must be 0, and the answers below those of start 0. Such a program has to be
 * built with this header, but not changed. Five numbers in braces are right C, and what is not listed is 0; with -Wextra the compiler warns of it, so
 * that warning alone is off in this file, as a caller would have it with -Wno-missing-field-initializers. */
#include "nitswolan.h"

#include "checks.h"
#include <string.h>

#pragma GCC diagnostic ignored "-Wmissing-field-initializers"

#define COUNT ((uint64_t)NITSWOLAN_UNITS_PER_COUNT)

/* The second move to check by: it takes 12 samples and is at half a count at sample 4. */
static const nitswolan_move listed = {8, COUNT, COUNT, COUNT, COUNT};
static const nitswolan_move named = {.displacement = 8, .velocity = COUNT, .acceleration = COUNT, .jerk = COUNT, .snap = COUNT};

static nitswolan_move set_one_by_one(void) {
  nitswolan_move move = {0};
  move.displacement = 8;
  move.velocity = COUNT;
  move.acceleration = COUNT;
  move.jerk = COUNT;
  move.snap = COUNT;
  return move;
}

static void check_sample(checks *tally, const char *what, nitswolan_sample_result at, int64_t position, int64_t count) {
  check(tally, what, at.refusal, 0);
  check(tally, what, (uint64_t)at.position, (uint64_t)position);
  check(tally, what, (uint64_t)at.count, (uint64_t)count);
  check(tally, what, (uint64_t)at.remainder, (uint64_t)(position - NITSWOLAN_UNITS_PER_COUNT * count));
}

static void check_move(checks *tally, const char *what, nitswolan_move move) {
  static int64_t table[NITSWOLAN_MOST_REFERENCE];
  const nitswolan_plan_result plan = nitswolan_plan_move(move);
  check(tally, what, (uint64_t)move.start, 0);
  check(tally, what, plan.refusal, 0);
  check(tally, what, plan.samples, 12);
  check_sample(tally, what, nitswolan_sample_move(move, 4), NITSWOLAN_UNITS_PER_COUNT / 2, 1);
  check_sample(tally, what, nitswolan_sample_move(move, 12), 8 * NITSWOLAN_UNITS_PER_COUNT, 8);
  check_sample(tally, what, nitswolan_sample_third(move, 0), 0, 0);
  check(tally, what, nitswolan_fill_positions(move, table, NITSWOLAN_MOST_POSITIONS).rows, 13);
  check(tally, what, (uint64_t)table[0], 0);
  check(tally, what, (uint64_t)table[12], 8 * COUNT);
  check(tally, what, nitswolan_fill_reference(move, table, NITSWOLAN_MOST_REFERENCE).rows, 14);
  check(tally, what, (uint64_t)table[0], 0);
  check(tally, what, (uint64_t)table[13], 16 * COUNT);
}

static void check_set(checks *tally) {
  const nitswolan_axes axes = {2, {{8, COUNT, COUNT, COUNT, COUNT}, {0, COUNT, COUNT, COUNT, COUNT}}};
  const nitswolan_sample rest = {0};
  const nitswolan_axes_sample_result at = nitswolan_sample_axes(axes, 12);
  check(tally, "an earlier set", at.refusal, 0);
  check(tally, "an earlier set", (uint64_t)axes.moves[0].start | (uint64_t)axes.moves[1].start, 0);
  check(tally, "an earlier set", (uint64_t)at.values[0].position, 8 * COUNT);
  check(tally, "an earlier axis at rest", memcmp(&at.values[1], &rest, sizeof rest) == 0, 1);
}

void check_earlier(checks *tally) {
  check_move(tally, "a move of five numbers", listed);
  check_move(tally, "a move of five named numbers", named);
  check_move(tally, "a move that is set one by one", set_one_by_one());
  check_set(tally);
}
