/* Where the library writes each field of a plan of either order, a sample and a table's answer. */
#include "wanted.h"

static void check_plan(checks *tally, areas *both) {
  CALL_TWICE(both, nitswolan_plan_move, sixth_move());
  check_extent(tally, "bytes of a plan", both, PLAN_RESULT_SIZE);
  check(tally, "plan.refusal", word(both, PLAN_RESULT_REFUSAL), 0);
  check(tally, "plan.samples", word(both, PLAN_RESULT_SAMPLES), 18);
  check_plan_at(tally, both, PLAN_RESULT_PLAN, sixth_plan());
  CALL_TWICE(both, nitswolan_plan_move, (raw_move){{1, 1, 1, 1, 1}});
  check_extent(tally, "bytes of a refused plan", both, PLAN_RESULT_SIZE);
  check(tally, "plan.refusal", word(both, PLAN_RESULT_REFUSAL), 7);
  check_zeros(tally, "the rest of a refused plan", both, PLAN_RESULT_SAMPLES, PLAN_RESULT_SIZE);
}

/* A move whose third-order plan has seven different numbers, and with any bound on the snap: it takes 17 samples. */
static raw_move third_move(uint64_t snap) {
  raw_move move = {{96, 10 * G, 2 * G, G, snap}};
  return move;
}

/* 96 counts, divided by b c e = 2 * 5 * 10. */
static const uint64_t third_jerk = UINT64_C(1055531162664);

/* The signs of its jerk at samples 0 to 17. */
static const int third_signs[18] = {1, 1, 0, 0, 0, -1, -1, 0, 0, 0, -1, -1, 0, 0, 0, 1, 1, 0};

static void check_third_plan(checks *tally, areas *both) {
  static const uint64_t snaps[] = {G, 0, UINT64_MAX};
  for (size_t k = 0; k < sizeof snaps / sizeof *snaps; k++) {
    CALL_TWICE(both, nitswolan_plan_third, third_move(snaps[k]));
    check_extent(tally, "bytes of a third-order plan", both, THIRD_PLAN_SIZE);
    check(tally, "third_plan.refusal", word(both, THIRD_PLAN_REFUSAL), 0);
    check(tally, "third_plan.samples", word(both, THIRD_PLAN_SAMPLES), 17);
    check(tally, "third_plan.b", word(both, THIRD_PLAN_B), 2);
    check(tally, "third_plan.c", word(both, THIRD_PLAN_C), 5);
    check(tally, "third_plan.e", word(both, THIRD_PLAN_E), 10);
    check(tally, "third_plan.jerk", word(both, THIRD_PLAN_JERK), third_jerk);
    check(tally, "third_plan.shortfall", word(both, THIRD_PLAN_SHORTFALL), 96);
  }
  CALL_TWICE(both, nitswolan_plan_third, (raw_move){{1, 1, 1, 1, 0}});
  check_extent(tally, "bytes of a refused third-order plan", both, THIRD_PLAN_SIZE);
  check(tally, "third_plan.refusal", word(both, THIRD_PLAN_REFUSAL), 7);
  check_zeros(tally, "the rest of a refused third-order plan", both, THIRD_PLAN_SAMPLES, THIRD_PLAN_SIZE);
}

/* The samples of a move, backward: the sums of the snap, or in third order of the jerk, whose signs at samples 0 to N are written out. The
 * move starts at 40 and passes 0. */
static void check_samples(checks *tally, areas *both, const order *of, raw_move move, uint64_t size, const int *signs, uint64_t samples) {
  wanted_sample at = wanted_from(40);
  int64_t *const summed = of == &third ? &at.jerk : &at.snap;
  move.words[MOVE_START / 8] = 40;
  move.words[MOVE_DISPLACEMENT / 8] = -move.words[MOVE_DISPLACEMENT / 8];
  for (uint64_t k = 0; k <= samples; k++) {
    *summed = -signs[k] * (int64_t)size;
    CALL_TWICE(both, of->sample, move, k);
    check_extent(tally, "bytes of a sample", both, SAMPLE_RESULT_SIZE);
    check(tally, "sample.refusal", word(both, SAMPLE_RESULT_REFUSAL), 0);
    check_sample_at(tally, both, SAMPLE_RESULT_SAMPLE, at);
    step(&at);
  }
  CALL_TWICE(both, of->sample, move, samples + 1);
  check_extent(tally, "bytes of a refused sample", both, SAMPLE_RESULT_SIZE);
  check(tally, "sample.refusal", word(both, SAMPLE_RESULT_REFUSAL), 9);
  check_zeros(tally, "the rest of a refused sample", both, SAMPLE_RESULT_SAMPLE, SAMPLE_RESULT_SIZE);
}

static void check_table(checks *tally, const char *what, raw_table_result answer, uint64_t refusal, uint64_t rows) {
  check(tally, what, answer.words[TABLE_REFUSAL / 8], refusal);
  check(tally, what, answer.words[TABLE_ROWS / 8], rows);
}

/* Lends so many places of a table for the first move from 100, or backward from -100. The rows that are wanted, in counts, must stand from
 * place 0 on, and every other place, lent or not, must be as it was. */
static void check_lent(checks *tally, const char *what, fill_table fill, int direction, size_t places, const int *counts, uint64_t rows) {
  int64_t table[12];
  raw_move move = first_move();
  move.words[MOVE_START / 8] = 100;
  if (direction < 0) {
    move.words[MOVE_DISPLACEMENT / 8] = -move.words[MOVE_DISPLACEMENT / 8];
    move.words[MOVE_START / 8] = -move.words[MOVE_START / 8];
  }
  memset(table, 0x55, sizeof table);
  check_table(tally, what, fill(move, table, places), rows == 0 ? 8 : 0, rows);
  for (uint64_t k = 0; k < sizeof table / sizeof *table; k++) {
    check(tally, what, (uint64_t)table[k], k < rows ? (uint64_t)(direction * counts[k] * (int64_t)G) : UINT64_C(0x5555555555555555));
  }
}

/* As many places as rows are enough, and one fewer is refused. */
static void check_rows(checks *tally, const char *what, fill_table fill, const int *counts, uint64_t rows) {
  for (int direction = -1; direction <= 1; direction += 2) {
    check_lent(tally, what, fill, direction, rows - 1, counts, 0);
    check_lent(tally, what, fill, direction, rows, counts, rows);
    check_lent(tally, what, fill, direction, rows + 1, counts, rows);
  }
}

/* The tables of the first move in counts. A reference row is the position plus the one before, which is the start's before sample 0, and
 * the last position is held once more. */
static void check_tables(checks *tally) {
  static const int positions[] = {100, 100, 100, 100, 101, 103, 105, 107, 108};
  static const int reference[] = {200, 200, 200, 200, 201, 204, 208, 212, 215, 216};
  static const int third_positions[] = {100, 100, 100, 101, 103, 105, 107, 108};
  static const int third_reference[] = {200, 200, 200, 201, 204, 208, 212, 215, 216};
  check_rows(tally, "positions", nitswolan_fill_positions, positions, 9);
  check_rows(tally, "reference rows", nitswolan_fill_reference, reference, 10);
  check_rows(tally, "third-order positions", nitswolan_fill_positions_third, third_positions, 8);
  check_rows(tally, "third-order reference rows", nitswolan_fill_reference_third, third_reference, 9);
}

static void check_forces(checks *tally) {
  double table[10];
  const raw_machine machine = {{2, 0, 0, 0, 0, 1}};
  check_table(tally, "forces", nitswolan_fill_force(first_move(), machine, table, 10), 0, 10);
  check_table(tally, "forces, too few", nitswolan_fill_force(first_move(), machine, table, 9), 8, 0);
}

void check_answers(checks *tally) {
  areas both;
  check_plan(tally, &both);
  check_third_plan(tally, &both);
  check_samples(tally, &both, &fourth, sixth_move(), sixth_plan().snap, sixth_signs, 18);
  check_samples(tally, &both, &third, third_move(0), third_jerk, third_signs, 17);
  check_tables(tally);
  check_forces(tally);
}
