/* The stack of each entry as the header has it. A file of its own: the entries are declared otherwise where they are called. */
#include "stack.h"

#include "nitswolan.h"

#define ENTRY(entry, name) [entry] = {name, NITSWOLAN_STACK_##entry}

const entry_stack declared_stack[ENTRIES] = {
  ENTRY(PLAN_MOVE, "nitswolan_plan_move"),
  ENTRY(SAMPLE_MOVE, "nitswolan_sample_move"),
  ENTRY(FILL_POSITIONS, "nitswolan_fill_positions"),
  ENTRY(FILL_REFERENCE, "nitswolan_fill_reference"),
  ENTRY(FILL_FORCE, "nitswolan_fill_force"),
  ENTRY(PLAN_THIRD, "nitswolan_plan_third"),
  ENTRY(SAMPLE_THIRD, "nitswolan_sample_third"),
  ENTRY(FILL_POSITIONS_THIRD, "nitswolan_fill_positions_third"),
  ENTRY(FILL_REFERENCE_THIRD, "nitswolan_fill_reference_third"),
  ENTRY(PLAN_AXES, "nitswolan_plan_axes"),
  ENTRY(SAMPLE_AXES, "nitswolan_sample_axes"),
  ENTRY(READ_SHEET, "nitswolan_read_sheet"),
  ENTRY(REPORT, "nitswolan_report"),
};
