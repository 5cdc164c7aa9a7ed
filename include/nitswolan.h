/*
 * nitswolan: moves of a sampling carriage, planned within bounds on velocity, acceleration, jerk and snap.
 *
 * Plans are of fourth order and keep all four bounds, except those of the functions whose names end in _third. These are for old drives,
 * which have no bound on the snap: their plans are of third order and keep the other three bounds. For every other drive use the fourth
 * order. Forces, sets of axes and the report of a sheet are of fourth order only.
 *
 * Every function takes all numbers that can be sent to it, returns, uses no heap and keeps no state. An answer's `refusal` is 0 where
 * there is none; at a refusal every other field is 0 (11 also gives its line, and a set of axes the place of the axis that is refused) and
 * every place of a table is as it was. Where several refusals apply the lowest is given, but 12 comes before 11, 13 before all others, 14
 * after 6 and before 7, and in a set the first axis that is refused before those after it. Calls may run beside each other as long as no
 * table or report buffer of one overlaps what another is lent.
 *
 * Every call ends, and waits for nothing. Below stand, of each function, the stack that it takes at most, and the most instructions that it
 * was found to take. From the C library only memcpy and memset are used. A table or a text of length 0 may be NULL; any other
 * pointer is valid for its length and aligned as its type asks. The archive is for x86-64 Linux; the header needs C99, or C++.
 *
 * nitswolan_fill_force needs the floating-point state that a C program starts with: rounding to nearest, subnormals kept, no exception
 * trapped. A program that is linked with -ffast-math or changes this state gets other forces, or a signal. The others use no floats.
 *
 * A unit is 2^-40 of a count; document 01 calls it a grain. Positions, bounds and shortfalls are whole numbers of units, displacements and
 * starts of counts. N is the number of samples that a move takes: the carriage is at rest at sample 0 and from sample N on. In third order
 * a move may take another number than in fourth.
 *
 * From millimetres and seconds, with K counts per millimetre and F samples per second, so that the sample time is 1/F seconds:
 *
 *   displacement = mm * K
 *   velocity     = mm/s   * K * 2^40 / F
 *   acceleration = mm/s^2 * K * 2^40 / F^2
 *   jerk         = mm/s^3 * K * 2^40 / F^3
 *   snap         = mm/s^4 * K * 2^40 / F^4
 *
 * The displacement is the nearest count, and the bounds are rounded down, so that none is passed. With 100 counts per millimetre and a
 * sample each millisecond:
 *
 *      300 mm      displacement  30000
 *      500 mm/s    velocity      54975581388800
 *     2000 mm/s^2  acceleration  219902325555
 *    20000 mm/s^3  jerk          2199023255
 *   400000 mm/s^4  snap          43980465
 *
 * That move takes 1003 samples, 1.003 s; examples/units.c computes these numbers. Where every bound is reached a move takes about
 * x/v + v/a + a/j + j/s seconds. It may take 4,096 samples at most, 4.1 s with a sample each millisecond.
 *
 * Positions and counts are read from the rail's zero: a move begins at its start count and ends at the start plus the displacement. All
 * else (plans, velocity, acceleration, jerk, snap and forces) is the same from every start that is not refused. The last position is the
 * shortfall, less than half a count, away from 2^40 times the end count, on the side of the start: below it if the displacement is above 0.
 * So who chains moves adds displacements, and not the table's last row divided by 2^40, which may be another count where there is a
 * shortfall: the end count, which is also the count at sample N, is the start of the next. Then the counts join, and the positions join but
 * for that shortfall.
 */
#ifndef NITSWOLAN_H
#define NITSWOLAN_H

#include <stddef.h>
#include <stdint.h>

#ifdef __cplusplus
extern "C" {
#endif

/* The version, in one place: nitswolan.pc and the shared object's name are made of these lines. The first number rises where a struct, a
 * signature or the meaning of a row changes, so that a caller must be built again or changed; the second with what is new; the third
 * otherwise. */
#define NITSWOLAN_VERSION_MAJOR 1
#define NITSWOLAN_VERSION_MINOR 0
#define NITSWOLAN_VERSION_PATCH 3
#define NITSWOLAN_VERSION_TEXT_(major, minor, patch) #major "." #minor "." #patch
#define NITSWOLAN_VERSION_TEXT(major, minor, patch) NITSWOLAN_VERSION_TEXT_(major, minor, patch)
#define NITSWOLAN_VERSION NITSWOLAN_VERSION_TEXT(NITSWOLAN_VERSION_MAJOR, NITSWOLAN_VERSION_MINOR, NITSWOLAN_VERSION_PATCH)

/* Units in a count. */
#define NITSWOLAN_UNITS_PER_COUNT INT64_C(1099511627776)

/* The most samples that a move may take, in either order, and the places of a table that is long enough for every move. */
#define NITSWOLAN_MOST_SAMPLES 4096
#define NITSWOLAN_MOST_POSITIONS (NITSWOLAN_MOST_SAMPLES + 1)
#define NITSWOLAN_MOST_REFERENCE (NITSWOLAN_MOST_SAMPLES + 2)
#define NITSWOLAN_MOST_FORCES (NITSWOLAN_MOST_SAMPLES + 2)

/* The most axes of a set. */
#define NITSWOLAN_MOST_AXES 8

/* The most sets and moves that a sheet lists, and the bytes of a report. */
#define NITSWOLAN_MOST_SETS 16
#define NITSWOLAN_MOST_MOVES 256
#define NITSWOLAN_REPORT_BYTES 32768

/* The stack that a call of each function takes at most, in bytes: its arguments, its return address and all that it calls, besides its
 * answer. As measured, rounded up to a multiple of 64. No function calls itself, directly or by way of others, so the depth of calls does
 * not grow with what is sent. What memcpy and memset take themselves is the C library's. Where a program binds their names only at
 * the first call, that call takes some 3 KiB more: link with -z now, or call every function once before. */
#define NITSWOLAN_STACK_PLAN_MOVE 320
#define NITSWOLAN_STACK_SAMPLE_MOVE 640
#define NITSWOLAN_STACK_FILL_POSITIONS 576
#define NITSWOLAN_STACK_FILL_REFERENCE 576
#define NITSWOLAN_STACK_FILL_FORCE 768
#define NITSWOLAN_STACK_PLAN_AXES 2624
#define NITSWOLAN_STACK_SAMPLE_AXES 4800
#define NITSWOLAN_STACK_PLAN_THIRD 192
#define NITSWOLAN_STACK_SAMPLE_THIRD 384
#define NITSWOLAN_STACK_FILL_POSITIONS_THIRD 320
#define NITSWOLAN_STACK_FILL_REFERENCE_THIRD 256
#define NITSWOLAN_STACK_READ_SHEET 14080
#define NITSWOLAN_STACK_REPORT 5184

/* The most instructions of the library that a call of each function was found to take, rounded up to a multiple of 100. Counted over inputs
 * that a search found in the archive of an older toolchain, and not proved: docs/BENCHMARKS.md of the sources says how, what bounds each,
 * and how many bytes the functions for sheets and sets hand to memcpy and memset besides. */
#define NITSWOLAN_INSTRUCTIONS_PLAN_MOVE 1600
#define NITSWOLAN_INSTRUCTIONS_SAMPLE_MOVE 2000
#define NITSWOLAN_INSTRUCTIONS_FILL_POSITIONS 34700
#define NITSWOLAN_INSTRUCTIONS_FILL_REFERENCE 40800
#define NITSWOLAN_INSTRUCTIONS_FILL_FORCE 141500
#define NITSWOLAN_INSTRUCTIONS_PLAN_AXES 12800
#define NITSWOLAN_INSTRUCTIONS_SAMPLE_AXES 16200
#define NITSWOLAN_INSTRUCTIONS_PLAN_THIRD 1000
#define NITSWOLAN_INSTRUCTIONS_SAMPLE_THIRD 1100
#define NITSWOLAN_INSTRUCTIONS_FILL_POSITIONS_THIRD 37300
#define NITSWOLAN_INSTRUCTIONS_FILL_REFERENCE_THIRD 45500
#define NITSWOLAN_INSTRUCTIONS_READ_SHEET 151400
#define NITSWOLAN_INSTRUCTIONS_REPORT 640300

/* Refusals. nitswolan_refusal_text has the words. */
enum {
  NITSWOLAN_NO_DISPLACEMENT = 1,
  NITSWOLAN_DISPLACEMENT_RANGE = 2,
  NITSWOLAN_VELOCITY_RANGE = 3,
  NITSWOLAN_ACCELERATION_RANGE = 4,
  NITSWOLAN_JERK_RANGE = 5,
  NITSWOLAN_SNAP_RANGE = 6, /* never given in third order */
  NITSWOLAN_TOO_MANY_SAMPLES = 7,
  NITSWOLAN_SHORT_TABLE = 8,
  NITSWOLAN_PAST_END = 9,
  NITSWOLAN_MACHINE_RANGE = 10,
  NITSWOLAN_SHEET_MALFORMED = 11, /* `line` says where */
  NITSWOLAN_SHEET_TOO_LONG = 12,
  NITSWOLAN_AXIS_COUNT = 13,
  NITSWOLAN_START_OR_END_RANGE = 14
};

/* A refusal in plain words, for a screen or a log; of 0 and of a number that is no refusal it says so. */
static inline const char *nitswolan_refusal_text(uint64_t refusal) {
  switch (refusal) {
  case 0: return "not refused";
  case NITSWOLAN_NO_DISPLACEMENT: return "the displacement is 0; in a set of axes, every one is";
  case NITSWOLAN_DISPLACEMENT_RANGE: return "the displacement is more than 1,048,576 counts either way";
  case NITSWOLAN_VELOCITY_RANGE: return "the bound on velocity is not in 1 to 2^50";
  case NITSWOLAN_ACCELERATION_RANGE: return "the bound on acceleration is not in 1 to 2^50";
  case NITSWOLAN_JERK_RANGE: return "the bound on jerk is not in 1 to 2^50";
  case NITSWOLAN_SNAP_RANGE: return "the bound on snap is not in 1 to 2^50";
  case NITSWOLAN_TOO_MANY_SAMPLES: return "the move needs more than 4,096 samples";
  case NITSWOLAN_SHORT_TABLE: return "the table is too short: it needs N+1 places, or N+2 for reference rows and forces";
  case NITSWOLAN_PAST_END: return "the sample asked for is above N";
  case NITSWOLAN_MACHINE_RANGE: return "a number of the machine is not finite or not in 0 to 2^20, or its stiffness is below 2^-20";
  case NITSWOLAN_SHEET_MALFORMED: return "the sheet is malformed";
  case NITSWOLAN_SHEET_TOO_LONG: return "the sheet has more than 65,535 bytes";
  case NITSWOLAN_AXIS_COUNT: return "the count of axes is not 1 to 8";
  case NITSWOLAN_START_OR_END_RANGE: return "the start, or the start plus the displacement, is beyond 1,048,576 counts either way";
  default: return "no such refusal";
  }
}

/* A move: the displacement in counts; the bounds on the size of velocity, acceleration, jerk and snap in units per sample, per sample
 * squared, cubed and to the fourth; and the start in counts from the rail's zero. The third order does not read `snap`, which may be any
 * number there.
 *
 * `start` is newer than the other fields. A move's own braces that list the five numbers before it make it 0 (with -Wextra gcc warns of
 * them), and so do designated initialisers that do not name it: such a program means what it meant, and has only to be built again with
 * this header. Each move needs braces of its own: in a flat list of several moves, or of a set, every number after the first move's five
 * now falls into another field. A program that sets the fields one by one begins with `nitswolan_move move = {0};`, or else it sends a
 * start that it never wrote. An object file that was built with the header from before `start` must not be linked with this library until
 * it is built again: nothing would tell, and the start would be whatever stood there. */
typedef struct {
  int64_t displacement;
  uint64_t velocity;
  uint64_t acceleration;
  uint64_t jerk;
  uint64_t snap;
  int64_t start;
} nitswolan_move;

/* A machine of two masses: m1 of the actuator and m2 of the load, the dampings k1 and k2 of each towards ground and k12 between them, each
 * 0 to 2^20, and the stiffness c between them, 2^-20 to 2^20. The drive is rigid if k12 is 0. Time is in samples and length in units, so a
 * force is a mass times units per sample squared: divide it by NITSWOLAN_UNITS_PER_COUNT for counts. With K counts per millimetre and F
 * samples per second: masses in kg, dampings in N s/m divided by F and a stiffness in N/m divided by F^2 give forces which, times
 * F^2 / (1000 * K * 2^40), are in N. */
typedef struct {
  double m1;
  double m2;
  double k1;
  double k2;
  double k12;
  double c;
} nitswolan_machine;

/* A set of axes that move together: how many, 1 to 8, and the move of each, with a start of its own. Only the first `count` moves are read.
 * All axes begin at sample 0 and end at sample N together; N is the largest that one of them needs alone. An axis with displacement 0 stays
 * at rest at its start, though its bounds and its start must be in range. */
typedef struct {
  uint64_t count;
  nitswolan_move moves[NITSWOLAN_MOST_AXES];
} nitswolan_axes;

/* A plan: N, the intervals a, b, c and e (they sum to N), the size of the snap, which begins in the direction of the displacement, and the
 * shortfall in units. `bottlerun` and nitswolan_report print the paper's durations in their place: p = a, q = b-a, r = c-a-b and
 * s = e-a-b-c, so that N = 8p+4q+2r+s, and the snap with the sign of the displacement. */
typedef struct {
  uint64_t refusal;
  uint64_t samples;
  uint64_t a;
  uint64_t b;
  uint64_t c;
  uint64_t e;
  uint64_t snap;
  uint64_t shortfall;
} nitswolan_plan_result;

/* A plan of third order: N, the intervals b, c and e (they sum to N), the size of the jerk, which begins in the direction of the
 * displacement, and the shortfall in units. */
typedef struct {
  uint64_t refusal;
  uint64_t samples;
  uint64_t b;
  uint64_t c;
  uint64_t e;
  uint64_t jerk;
  uint64_t shortfall;
} nitswolan_third_plan_result;

/* The values at a sample in units, the position from the rail's zero; the position to the nearest count, halves away from the start; and
 * the remainder in units, which is the position minus NITSWOLAN_UNITS_PER_COUNT times the count. It lies from -2^39 to 2^39, half a count
 * either way: above 0 where the position is greater than the count, and below 0 where it is less, whatever the direction of the move. At
 * sample N the count is the start plus the displacement, and the remainder is minus the shortfall if the displacement is above 0, and plus
 * the shortfall if it is below 0. The snap is 0 in third order. */
typedef struct {
  uint64_t refusal;
  int64_t snap;
  int64_t jerk;
  int64_t acceleration;
  int64_t velocity;
  int64_t position;
  int64_t count;
  int64_t remainder;
} nitswolan_sample_result;

/* The plan of an axis in a set, as in nitswolan_plan_result, with e raised so that the intervals sum to the N of the set. `snap` is the
 * size of the snap here too, which begins in the direction of the displacement. All six numbers are 0 for an axis at rest. */
typedef struct {
  uint64_t a;
  uint64_t b;
  uint64_t c;
  uint64_t e;
  uint64_t snap;
  uint64_t shortfall;
} nitswolan_plan;

/* The plans of a set: its N, and plans[i] for moves[i]; those after the count hold zeros. `place` is the number, from 1, of the axis that
 * is refused, whose move is moves[place - 1], or 0 if none is. */
typedef struct {
  uint64_t refusal;
  uint64_t place;
  uint64_t samples;
  nitswolan_plan plans[NITSWOLAN_MOST_AXES];
} nitswolan_axes_plan_result;

/* The values of an axis at a sample, as in nitswolan_sample_result. At the N of the set the remainder is minus or plus the shortfall of the
 * axis's plan in the set, which need not be that of its move alone. An axis at rest has the position and the count of its start, and 0 for
 * the other five. */
typedef struct {
  int64_t snap;
  int64_t jerk;
  int64_t acceleration;
  int64_t velocity;
  int64_t position;
  int64_t count;
  int64_t remainder;
} nitswolan_sample;

/* The values of a set at a sample: values[i] for moves[i]; those after the count hold zeros. `place` as for plans. */
typedef struct {
  uint64_t refusal;
  uint64_t place;
  nitswolan_sample values[NITSWOLAN_MOST_AXES];
} nitswolan_axes_sample_result;

/* How many rows were written, from place 0 on. Every later place keeps what it held. */
typedef struct {
  uint64_t refusal;
  uint64_t rows;
} nitswolan_table_result;

/* The bounds of a set, as in a move. */
typedef struct {
  uint64_t velocity;
  uint64_t acceleration;
  uint64_t jerk;
  uint64_t snap;
} nitswolan_bound_set;

/* A move of a sheet: the displacement in counts, and the number of its set, from 1 to set_count; its bounds are sets[set - 1]. In a place
 * that no move takes, set is 0: look at the first move_count places only. */
typedef struct {
  int64_t displacement;
  uint64_t set;
} nitswolan_route_move;

/* What a sheet lists. Places that no set and no move takes hold zeros. */
typedef struct {
  uint64_t refusal;
  uint64_t line;
  uint64_t set_count;
  uint64_t move_count;
  nitswolan_bound_set sets[NITSWOLAN_MOST_SETS];
  nitswolan_route_move moves[NITSWOLAN_MOST_MOVES];
} nitswolan_sheet_result;

/* Room for every report. */
typedef struct {
  uint8_t bytes[NITSWOLAN_REPORT_BYTES];
} nitswolan_report_buffer;

/* Plans a move. Refusals 1 to 7 and 14. */
nitswolan_plan_result nitswolan_plan_move(nitswolan_move move);

/* The values of a move at a sample from 0 to N. The time of a call does not grow with the sample asked for, here and in third order.
 * Refusals 1 to 7, 9 and 14. */
nitswolan_sample_result nitswolan_sample_move(nitswolan_move move, uint64_t sample);

/* Fills a table with the positions of a move at samples 0 to N, in units from the rail's zero. `places` is the length of the table in
 * elements, not bytes; likewise below. Refusals 1 to 8 and 14. */
nitswolan_table_result nitswolan_fill_positions(nitswolan_move move, int64_t *table, size_t places);

/* Fills a table with the reference rows of a move, for the feedback loop: rows 0 to N+1, which need N+2 places. Row k is the position at
 * sample k plus the position at k-1, where the position before sample 0 is the start's, and after sample N it is still that at N. So row 0
 * is twice the position of the start, row N+1 is twice the last position, and a row is at most 2^61 in size. Rows are in doubled units:
 * half of row k is the mean of the two positions, at a steady speed the position half a sample before k. The measured position is late by
 * as much, since it is sampled. At sample k compare row k with twice the measured position in units; or halve the row, which loses half a
 * unit if it is odd. Refusals 1 to 8 and 14. */
nitswolan_table_result nitswolan_fill_reference(nitswolan_move move, int64_t *table, size_t places);

/* Fills a table with the feedforward forces of a move on a machine, rows 0 to N+1: row k belongs to sample k and is made of values up to
 * two samples before it, so there is one row more than positions. Refusals 1 to 8, 10 and 14. */
nitswolan_table_result nitswolan_fill_force(nitswolan_move move, nitswolan_machine machine, double *table, size_t places);

/* Plans a move in third order, for an old drive. Refusals 1 to 5, 7 and 14. */
nitswolan_third_plan_result nitswolan_plan_third(nitswolan_move move);

/* The values of a move in third order at a sample from 0 to N. At sample 0 acceleration and velocity are 0 and the position is the start's,
 * but the jerk already has the size that the plan gives; at sample N jerk, acceleration and velocity are 0. Refusals 1 to 5, 7, 9 and
 * 14. */
nitswolan_sample_result nitswolan_sample_third(nitswolan_move move, uint64_t sample);

/* Fills a table with the positions of a move in third order at samples 0 to N, in units from the rail's zero. Refusals 1 to 5, 7, 8 and
 * 14. */
nitswolan_table_result nitswolan_fill_positions_third(nitswolan_move move, int64_t *table, size_t places);

/* Fills a table with the reference rows of a move in third order, for the feedback loop: rows 0 to N+1 in doubled units, made of the
 * third-order positions as nitswolan_fill_reference says. They need N+2 places. Refusals 1 to 5, 7, 8 and 14. */
nitswolan_table_result nitswolan_fill_reference_third(nitswolan_move move, int64_t *table, size_t places);

/* Plans a set of axes. Refusals 1 to 7, 13 and 14: 13 before all others, then 1 if every displacement is 0, both with place 0. Otherwise
 * the first axis that is refused gives the first of its refusals and its place: 2 to 6, 14 or 7; or 3 to 6 or 14 if it is at rest. */
nitswolan_axes_plan_result nitswolan_plan_axes(nitswolan_axes axes);

/* The values of every axis of a set at a sample from 0 to N. Refusals as for its plans, and then 9, with place 0. There are no tables for a
 * set: it is asked sample by sample. Each call plans the set again; its time does not grow with the sample asked for. */
nitswolan_axes_sample_result nitswolan_sample_axes(nitswolan_axes axes, uint64_t sample);

/* Reads the text of a route sheet. Refusals 11 and 12. The moves are not planned: each may still be refused, 1 to 7. They have no start:
 * as moves from start 0 they are never refused 14. */
nitswolan_sheet_result nitswolan_read_sheet(const uint8_t *text, size_t length);

/* Writes what `bottlerun` prints of a sheet's text, one line a move or the line of its refusal, and answers how many bytes that is; no
 * zero byte follows them. Every later byte keeps what it held. The text and the buffer may not overlap, and the buffer may
 * not be NULL. */
size_t nitswolan_report(const uint8_t *text, size_t length, nitswolan_report_buffer *report);

#ifdef __cplusplus
}
#endif

#endif
