/* The entries, first those for a move, then those for a set of axes, then those for a sheet, and what the header says of their stack. */
#ifndef STACK_H
#define STACK_H

#include <stddef.h>

enum {
  PLAN_MOVE,
  SAMPLE_MOVE,
  FILL_POSITIONS,
  FILL_REFERENCE,
  FILL_FORCE,
  PLAN_THIRD,
  SAMPLE_THIRD,
  FILL_POSITIONS_THIRD,
  FILL_REFERENCE_THIRD,
  PLAN_AXES,
  SAMPLE_AXES,
  READ_SHEET,
  REPORT,
  ENTRIES
};

typedef struct {
  const char *name;
  size_t most;
} entry_stack;

extern const entry_stack declared_stack[ENTRIES];

#endif
