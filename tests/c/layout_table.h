/* The size of each struct of the interface, and the offset of each field, in bytes. Both sides are held to these numbers: the header as
 * the C compiler lays it out (layout_header.c), and the library as it reads and writes raw bytes (layout_arguments.c, layout_answers.c,
 * layout_axes.c, layout_sheet.c). */
#ifndef LAYOUT_TABLE_H
#define LAYOUT_TABLE_H

enum {
  MOVE_DISPLACEMENT = 0,
  MOVE_VELOCITY = 8,
  MOVE_ACCELERATION = 16,
  MOVE_JERK = 24,
  MOVE_SNAP = 32,
  MOVE_START = 40,
  MOVE_SIZE = 48
};

enum { MACHINE_M1 = 0, MACHINE_M2 = 8, MACHINE_K1 = 16, MACHINE_K2 = 24, MACHINE_K12 = 32, MACHINE_C = 40, MACHINE_SIZE = 48 };

enum { PLAN_A = 0, PLAN_B = 8, PLAN_C = 16, PLAN_E = 24, PLAN_SNAP = 32, PLAN_SHORTFALL = 40, PLAN_SIZE = 48 };

/* Where the numbers of a plan begin in its answer; likewise the values of a sample, and the arrays of a set. */
enum { PLAN_RESULT_REFUSAL = 0, PLAN_RESULT_SAMPLES = 8, PLAN_RESULT_PLAN = 16, PLAN_RESULT_SIZE = 64 };

enum {
  THIRD_PLAN_REFUSAL = 0,
  THIRD_PLAN_SAMPLES = 8,
  THIRD_PLAN_B = 16,
  THIRD_PLAN_C = 24,
  THIRD_PLAN_E = 32,
  THIRD_PLAN_JERK = 40,
  THIRD_PLAN_SHORTFALL = 48,
  THIRD_PLAN_SIZE = 56
};

enum {
  SAMPLE_SNAP = 0,
  SAMPLE_JERK = 8,
  SAMPLE_ACCELERATION = 16,
  SAMPLE_VELOCITY = 24,
  SAMPLE_POSITION = 32,
  SAMPLE_COUNT = 40,
  SAMPLE_REMAINDER = 48,
  SAMPLE_SIZE = 56
};

enum { SAMPLE_RESULT_REFUSAL = 0, SAMPLE_RESULT_SAMPLE = 8, SAMPLE_RESULT_SIZE = 64 };

enum { AXES_COUNT = 0, AXES_MOVES = 8, AXES_SIZE = 392 };

enum { AXES_PLAN_REFUSAL = 0, AXES_PLAN_PLACE = 8, AXES_PLAN_SAMPLES = 16, AXES_PLAN_PLANS = 24, AXES_PLAN_SIZE = 408 };

enum { AXES_SAMPLE_REFUSAL = 0, AXES_SAMPLE_PLACE = 8, AXES_SAMPLE_VALUES = 16, AXES_SAMPLE_SIZE = 464 };

enum { TABLE_REFUSAL = 0, TABLE_ROWS = 8, TABLE_SIZE = 16 };

enum { SET_VELOCITY = 0, SET_ACCELERATION = 8, SET_JERK = 16, SET_SNAP = 24, SET_SIZE = 32 };

enum { ROUTE_DISPLACEMENT = 0, ROUTE_SET = 8, ROUTE_SIZE = 16 };

enum {
  SHEET_REFUSAL = 0,
  SHEET_LINE = 8,
  SHEET_SET_COUNT = 16,
  SHEET_MOVE_COUNT = 24,
  SHEET_SETS = 32,
  SHEET_MOVES = 544,
  SHEET_SIZE = 4640
};

enum { MOST_AXES = 8, MOST_SETS = 16, MOST_MOVES = 256, REPORT_SIZE = 32768 };

#endif
