/* The numbers of a plan and the values of a sample that are wanted, and the check of them from a byte of an answer on. */
#ifndef WANTED_H
#define WANTED_H

#include "checks.h"
#include "raw_entries.h"
#include "written.h"

typedef struct {
  uint64_t a;
  uint64_t b;
  uint64_t c;
  uint64_t e;
  uint64_t snap;
  uint64_t shortfall;
} wanted_plan;

/* The count and the remainder are the position's, rounded away from the start. */
typedef struct {
  int64_t snap;
  int64_t jerk;
  int64_t acceleration;
  int64_t velocity;
  int64_t position;
  int64_t start;
} wanted_sample;

/* At sample 0 of a move that starts at this count. */
static inline wanted_sample wanted_from(int64_t start) {
  wanted_sample at = {0, 0, 0, 0, (int64_t)G * start, start};
  return at;
}

/* A move whose plan has eight different numbers: the sixth to check by. It takes 18 samples. */
static inline raw_move sixth_move(void) {
  raw_move move = {{96, 1000 * G, 2 * G, G, G}};
  return move;
}

static inline wanted_plan sixth_plan(void) {
  wanted_plan plan = {1, 2, 6, 9, UINT64_C(977343669134), 24};
  return plan;
}

/* The signs of its snap at samples 0 to 18. */
static const int sixth_signs[19] = {1, 0, -1, 0, 0, 0, -1, 0, 1, -1, 0, 1, 0, 0, 0, 1, 0, -1, 0};

static inline void check_plan_at(checks *tally, const areas *both, size_t start, wanted_plan plan) {
  check(tally, "plan.a", word(both, start + PLAN_A), plan.a);
  check(tally, "plan.b", word(both, start + PLAN_B), plan.b);
  check(tally, "plan.c", word(both, start + PLAN_C), plan.c);
  check(tally, "plan.e", word(both, start + PLAN_E), plan.e);
  check(tally, "plan.snap", word(both, start + PLAN_SNAP), plan.snap);
  check(tally, "plan.shortfall", word(both, start + PLAN_SHORTFALL), plan.shortfall);
}

static inline void check_sample_at(checks *tally, const areas *both, size_t start, wanted_sample at) {
  const int64_t half = (int64_t)G / 2;
  const int64_t distance = at.position - (int64_t)G * at.start;
  const int64_t count = at.start + (distance + (distance < 0 ? -half : half)) / (int64_t)G;
  check(tally, "sample.snap", word(both, start + SAMPLE_SNAP), (uint64_t)at.snap);
  check(tally, "sample.jerk", word(both, start + SAMPLE_JERK), (uint64_t)at.jerk);
  check(tally, "sample.acceleration", word(both, start + SAMPLE_ACCELERATION), (uint64_t)at.acceleration);
  check(tally, "sample.velocity", word(both, start + SAMPLE_VELOCITY), (uint64_t)at.velocity);
  check(tally, "sample.position", word(both, start + SAMPLE_POSITION), (uint64_t)at.position);
  check(tally, "sample.count", word(both, start + SAMPLE_COUNT), (uint64_t)count);
  check(tally, "sample.remainder", word(both, start + SAMPLE_REMAINDER), (uint64_t)(at.position - (int64_t)G * count));
}

/* The values one sample on, but for the snap. */
static inline void step(wanted_sample *at) {
  at->position += at->velocity;
  at->velocity += at->acceleration;
  at->acceleration += at->jerk;
  at->jerk += at->snap;
}

#endif
