/* The structs as the C compiler lays out the header. */
#include "nitswolan.h"

#include "checks.h"
#include "layout_table.h"

#define SIZE(type, size) check(tally, "sizeof " #type, sizeof(type), size)

/* A field of eight bytes. */
#define FIELD(type, field, offset)                                                        \
  do {                                                                                    \
    check(tally, "offsetof " #type "." #field, offsetof(type, field), offset);            \
    check(tally, "sizeof " #type "." #field, sizeof(((type *)0)->field), sizeof(uint64_t)); \
  } while (0)

/* The numbers of a plan, from byte `start` of a struct on; and the values of a sample. */
#define PLAN_FIELDS(type, start)                      \
  do {                                                \
    FIELD(type, a, (start) + PLAN_A);                 \
    FIELD(type, b, (start) + PLAN_B);                 \
    FIELD(type, c, (start) + PLAN_C);                 \
    FIELD(type, e, (start) + PLAN_E);                 \
    FIELD(type, snap, (start) + PLAN_SNAP);           \
    FIELD(type, shortfall, (start) + PLAN_SHORTFALL); \
  } while (0)
#define SAMPLE_FIELDS(type, start)                            \
  do {                                                        \
    FIELD(type, snap, (start) + SAMPLE_SNAP);                 \
    FIELD(type, jerk, (start) + SAMPLE_JERK);                 \
    FIELD(type, acceleration, (start) + SAMPLE_ACCELERATION); \
    FIELD(type, velocity, (start) + SAMPLE_VELOCITY);         \
    FIELD(type, position, (start) + SAMPLE_POSITION);         \
    FIELD(type, count, (start) + SAMPLE_COUNT);               \
    FIELD(type, remainder, (start) + SAMPLE_REMAINDER);       \
  } while (0)

static void check_given(checks *tally) {
  SIZE(nitswolan_move, MOVE_SIZE);
  FIELD(nitswolan_move, displacement, MOVE_DISPLACEMENT);
  FIELD(nitswolan_move, velocity, MOVE_VELOCITY);
  FIELD(nitswolan_move, acceleration, MOVE_ACCELERATION);
  FIELD(nitswolan_move, jerk, MOVE_JERK);
  FIELD(nitswolan_move, snap, MOVE_SNAP);
  FIELD(nitswolan_move, start, MOVE_START);
  SIZE(nitswolan_machine, MACHINE_SIZE);
  FIELD(nitswolan_machine, m1, MACHINE_M1);
  FIELD(nitswolan_machine, m2, MACHINE_M2);
  FIELD(nitswolan_machine, k1, MACHINE_K1);
  FIELD(nitswolan_machine, k2, MACHINE_K2);
  FIELD(nitswolan_machine, k12, MACHINE_K12);
  FIELD(nitswolan_machine, c, MACHINE_C);
}

static void check_results(checks *tally) {
  SIZE(nitswolan_plan_result, PLAN_RESULT_SIZE);
  FIELD(nitswolan_plan_result, refusal, PLAN_RESULT_REFUSAL);
  FIELD(nitswolan_plan_result, samples, PLAN_RESULT_SAMPLES);
  PLAN_FIELDS(nitswolan_plan_result, PLAN_RESULT_PLAN);
  SIZE(nitswolan_third_plan_result, THIRD_PLAN_SIZE);
  FIELD(nitswolan_third_plan_result, refusal, THIRD_PLAN_REFUSAL);
  FIELD(nitswolan_third_plan_result, samples, THIRD_PLAN_SAMPLES);
  FIELD(nitswolan_third_plan_result, b, THIRD_PLAN_B);
  FIELD(nitswolan_third_plan_result, c, THIRD_PLAN_C);
  FIELD(nitswolan_third_plan_result, e, THIRD_PLAN_E);
  FIELD(nitswolan_third_plan_result, jerk, THIRD_PLAN_JERK);
  FIELD(nitswolan_third_plan_result, shortfall, THIRD_PLAN_SHORTFALL);
  SIZE(nitswolan_sample_result, SAMPLE_RESULT_SIZE);
  FIELD(nitswolan_sample_result, refusal, SAMPLE_RESULT_REFUSAL);
  SAMPLE_FIELDS(nitswolan_sample_result, SAMPLE_RESULT_SAMPLE);
  SIZE(nitswolan_table_result, TABLE_SIZE);
  FIELD(nitswolan_table_result, refusal, TABLE_REFUSAL);
  FIELD(nitswolan_table_result, rows, TABLE_ROWS);
}

static void check_set_of_axes(checks *tally) {
  SIZE(nitswolan_axes, AXES_SIZE);
  FIELD(nitswolan_axes, count, AXES_COUNT);
  check(tally, "offsetof nitswolan_axes.moves", offsetof(nitswolan_axes, moves), AXES_MOVES);
  SIZE(nitswolan_plan, PLAN_SIZE);
  PLAN_FIELDS(nitswolan_plan, 0);
  SIZE(nitswolan_axes_plan_result, AXES_PLAN_SIZE);
  FIELD(nitswolan_axes_plan_result, refusal, AXES_PLAN_REFUSAL);
  FIELD(nitswolan_axes_plan_result, place, AXES_PLAN_PLACE);
  FIELD(nitswolan_axes_plan_result, samples, AXES_PLAN_SAMPLES);
  check(tally, "offsetof nitswolan_axes_plan_result.plans", offsetof(nitswolan_axes_plan_result, plans), AXES_PLAN_PLANS);
  SIZE(nitswolan_sample, SAMPLE_SIZE);
  SAMPLE_FIELDS(nitswolan_sample, 0);
  SIZE(nitswolan_axes_sample_result, AXES_SAMPLE_SIZE);
  FIELD(nitswolan_axes_sample_result, refusal, AXES_SAMPLE_REFUSAL);
  FIELD(nitswolan_axes_sample_result, place, AXES_SAMPLE_PLACE);
  check(tally, "offsetof nitswolan_axes_sample_result.values", offsetof(nitswolan_axes_sample_result, values), AXES_SAMPLE_VALUES);
  check(tally, "axes of nitswolan_axes", NITSWOLAN_MOST_AXES, MOST_AXES);
}

static void check_sheet(checks *tally) {
  SIZE(nitswolan_bound_set, SET_SIZE);
  FIELD(nitswolan_bound_set, velocity, SET_VELOCITY);
  FIELD(nitswolan_bound_set, acceleration, SET_ACCELERATION);
  FIELD(nitswolan_bound_set, jerk, SET_JERK);
  FIELD(nitswolan_bound_set, snap, SET_SNAP);
  SIZE(nitswolan_route_move, ROUTE_SIZE);
  FIELD(nitswolan_route_move, displacement, ROUTE_DISPLACEMENT);
  FIELD(nitswolan_route_move, set, ROUTE_SET);
  SIZE(nitswolan_sheet_result, SHEET_SIZE);
  FIELD(nitswolan_sheet_result, refusal, SHEET_REFUSAL);
  FIELD(nitswolan_sheet_result, line, SHEET_LINE);
  FIELD(nitswolan_sheet_result, set_count, SHEET_SET_COUNT);
  FIELD(nitswolan_sheet_result, move_count, SHEET_MOVE_COUNT);
  check(tally, "offsetof nitswolan_sheet_result.sets", offsetof(nitswolan_sheet_result, sets), SHEET_SETS);
  check(tally, "offsetof nitswolan_sheet_result.moves", offsetof(nitswolan_sheet_result, moves), SHEET_MOVES);
  check(tally, "sets of nitswolan_sheet_result", NITSWOLAN_MOST_SETS, MOST_SETS);
  check(tally, "moves of nitswolan_sheet_result", NITSWOLAN_MOST_MOVES, MOST_MOVES);
  SIZE(nitswolan_report_buffer, REPORT_SIZE);
}

/* The names of the refusals, in the order of the paper's numbers. */
static void check_refusals(checks *tally) {
  static const uint64_t named[] = {
    NITSWOLAN_NO_DISPLACEMENT, NITSWOLAN_DISPLACEMENT_RANGE, NITSWOLAN_VELOCITY_RANGE,   NITSWOLAN_ACCELERATION_RANGE,
    NITSWOLAN_JERK_RANGE,      NITSWOLAN_SNAP_RANGE,         NITSWOLAN_TOO_MANY_SAMPLES, NITSWOLAN_SHORT_TABLE,
    NITSWOLAN_PAST_END,        NITSWOLAN_MACHINE_RANGE,      NITSWOLAN_SHEET_MALFORMED,  NITSWOLAN_SHEET_TOO_LONG,
    NITSWOLAN_AXIS_COUNT,      NITSWOLAN_START_OR_END_RANGE,
  };
  for (uint64_t i = 0; i < sizeof named / sizeof named[0]; i++) {
    check(tally, "the number of a refusal's name", named[i], i + 1);
  }
}

void check_header(checks *tally) {
  check_refusals(tally);
  check_given(tally);
  check_results(tally);
  check_set_of_axes(tally);
  check_sheet(tally);
}
