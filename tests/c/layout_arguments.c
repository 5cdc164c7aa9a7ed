/* Where the library reads each field of its arguments: a field that is changed alone gives the answer that belongs to it. */
#include "checks.h"
#include "raw_entries.h"

static raw_machine machine_of(double m1, double m2, double k1, double k2, double k12, double c) {
  raw_machine machine;
  machine.words[MACHINE_M1 / 8] = m1;
  machine.words[MACHINE_M2 / 8] = m2;
  machine.words[MACHINE_K1 / 8] = k1;
  machine.words[MACHINE_K2 / 8] = k2;
  machine.words[MACHINE_K12 / 8] = k12;
  machine.words[MACHINE_C / 8] = c;
  return machine;
}

/* The refusal of an order's entries at a move, which takes 7 or 8 samples if it is accepted. The plans of both orders begin with theirs. */
static void check_order(checks *tally, const char *what, const order *of, raw_move move, uint64_t refusal) {
  uint64_t plan[PLAN_RESULT_SIZE / 8];
  uint64_t sample[SAMPLE_RESULT_SIZE / 8];
  int64_t table[10];
  of->plan(plan, move);
  of->sample(sample, move, 7);
  check(tally, what, plan[PLAN_RESULT_REFUSAL / 8], refusal);
  check(tally, what, sample[SAMPLE_RESULT_REFUSAL / 8], refusal);
  check(tally, what, of->fill_positions(move, table, 9).words[TABLE_REFUSAL / 8], refusal);
  check(tally, what, of->fill_reference(move, table, 10).words[TABLE_REFUSAL / 8], refusal);
}

/* The refusal of each entry that takes a move. The third order does not read the snap, for which alone 6 is given. */
static void check_refusals(checks *tally, const char *what, raw_move move, uint64_t refusal) {
  double forces[10];
  const raw_machine machine = machine_of(2, 0, 0, 0, 0, 1);
  check_order(tally, what, &fourth, move, refusal);
  check_order(tally, what, &third, move, refusal == 6 ? 0 : refusal);
  check(tally, what, nitswolan_fill_force(move, machine, forces, 10).words[TABLE_REFUSAL / 8], refusal);
}

static void check_move_field(checks *tally, const char *what, size_t offset, uint64_t value, uint64_t refusal) {
  raw_move move = first_move();
  move.words[offset / 8] = value;
  check_refusals(tally, what, move, refusal);
}

static void check_move(checks *tally) {
  const uint64_t above = (UINT64_C(1) << 50) + 1;
  check_refusals(tally, "the first move", first_move(), 0);
  check_move_field(tally, "move.displacement 0", MOVE_DISPLACEMENT, 0, 1);
  check_move_field(tally, "move.displacement -1048577", MOVE_DISPLACEMENT, (uint64_t)INT64_C(-1048577), 2);
  check_move_field(tally, "move.velocity 0", MOVE_VELOCITY, 0, 3);
  check_move_field(tally, "move.acceleration 0", MOVE_ACCELERATION, 0, 4);
  check_move_field(tally, "move.jerk 0", MOVE_JERK, 0, 5);
  check_move_field(tally, "move.snap 0", MOVE_SNAP, 0, 6);
  check_move_field(tally, "move.velocity 2^50+1", MOVE_VELOCITY, above, 3);
  check_move_field(tally, "move.acceleration 2^50+1", MOVE_ACCELERATION, above, 4);
  check_move_field(tally, "move.jerk 2^50+1", MOVE_JERK, above, 5);
  check_move_field(tally, "move.snap 2^50+1", MOVE_SNAP, above, 6);
  /* The first move goes 8 counts up. */
  check_move_field(tally, "move.start -1048576", MOVE_START, (uint64_t)INT64_C(-1048576), 0);
  check_move_field(tally, "move.start -1048577", MOVE_START, (uint64_t)INT64_C(-1048577), 14);
  check_move_field(tally, "move.start 1048568", MOVE_START, 1048568, 0);
  check_move_field(tally, "move.start 1048569", MOVE_START, 1048569, 14);
  check_move_field(tally, "move.start -2^63", MOVE_START, UINT64_C(1) << 63, 14);
  check_move_field(tally, "move.start 2^63-1", MOVE_START, (uint64_t)INT64_MAX, 14);
}

/* A row of the first move's forces. Row 2 is (2 q1 + q2)/2 and row 3 is (-2 q1 + q2 + 2 q3 + q4)/2 before the drive, in counts. */
static void check_force(checks *tally, const char *what, raw_machine machine, int row, double counts) {
  double forces[10] = {0};
  const double force = counts * (double)G;
  check(tally, what, nitswolan_fill_force(first_move(), machine, forces, 10).words[TABLE_ROWS / 8], 10);
  check(tally, what, forces[row] == force, 1);
}

static void check_machine(checks *tally) {
  /* Rounding tells (m1, k1) from (m2, k2), which the rules otherwise treat alike: q2 = 3*2^19 + m1*k2 + m2*k1, summed from the left,
   * where m1*k2 is a half of the last place and m2*k1 three quarters. The first is lost, the second rounds up; 2*k12 + c is 2^21. */
  const double last_place = 1.0 / 4294967296.0;
  const raw_machine rounded = machine_of(1, 1, 0.75 * last_place, 0.5 * last_place, 786432, 524288);
  check_force(tally, "machine.k1 before k2", rounded, 2, (2.0 + (1572864.0 + last_place)) / 4194304.0);
  check_force(tally, "machine.m1", machine_of(2, 0, 0, 0, 0, 1), 3, 2);
  check_force(tally, "machine.m2", machine_of(0, 3, 0, 0, 0, 1), 3, 3);
  check_force(tally, "machine.k12, row 2", machine_of(2, 0, 0, 0, 0.5, 1), 2, 0.25);
  check_force(tally, "machine.k12, row 3", machine_of(2, 0, 0, 0, 0.5, 1), 3, 1.5);
  check_force(tally, "machine.k1 and k2", machine_of(2, 3, 5, 7, 0, 1), 3, 54.5);
  check_force(tally, "machine.c", machine_of(2, 3, 5, 7, 0, 2), 3, 32.75);
}

/* A number of a machine that is refused by itself; 0 is within the range of each but c. */
static void check_range(checks *tally, const char *what, size_t offset, int from_zero) {
  static const double numbers[] = {-1, 1048577, 0};
  for (size_t k = 0; k < 3; k++) {
    double forces[10];
    raw_machine machine = machine_of(1, 1, 1, 1, 1, 1);
    machine.words[offset / 8] = numbers[k];
    const raw_table_result answer = nitswolan_fill_force(first_move(), machine, forces, 10);
    check(tally, what, answer.words[TABLE_REFUSAL / 8], numbers[k] == 0 && from_zero ? 0 : 10);
  }
}

static void check_ranges(checks *tally) {
  check_range(tally, "range of machine.m1", MACHINE_M1, 1);
  check_range(tally, "range of machine.m2", MACHINE_M2, 1);
  check_range(tally, "range of machine.k1", MACHINE_K1, 1);
  check_range(tally, "range of machine.k2", MACHINE_K2, 1);
  check_range(tally, "range of machine.k12", MACHINE_K12, 1);
  check_range(tally, "range of machine.c", MACHINE_C, 0);
}

void check_arguments(checks *tally) {
  check_move(tally);
  check_machine(tally);
  check_ranges(tally);
}
