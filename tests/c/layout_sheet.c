/* Where the library writes each field of a sheet. */
#include "checks.h"
#include "raw_entries.h"
#include "written.h"

/* A sheet with every set and every move, each number different from its neighbours. */
static void full_sheet(char *text) {
  text += sprintf(text, "%d\n", MOST_SETS);
  for (int k = 0; k < MOST_SETS; k++) {
    text += sprintf(text, "%d %d %d %d\n", 1000 + k, 2000 + k, 3000 + k, 4000 + k);
  }
  text += sprintf(text, "%d\n", MOST_MOVES);
  for (int k = 0; k < MOST_MOVES; k++) {
    text += sprintf(text, "-%d %d\n", 5000 + k, 1 + k % MOST_SETS);
  }
}

static void check_listed(checks *tally, const areas *both) {
  check(tally, "sheet.refusal", word(both, SHEET_REFUSAL), 0);
  check(tally, "sheet.line", word(both, SHEET_LINE), 0);
  check(tally, "sheet.set_count", word(both, SHEET_SET_COUNT), MOST_SETS);
  check(tally, "sheet.move_count", word(both, SHEET_MOVE_COUNT), MOST_MOVES);
  for (size_t k = 0; k < MOST_SETS; k++) {
    const size_t set = SHEET_SETS + k * SET_SIZE;
    check(tally, "set.velocity", word(both, set + SET_VELOCITY), 1000 + k);
    check(tally, "set.acceleration", word(both, set + SET_ACCELERATION), 2000 + k);
    check(tally, "set.jerk", word(both, set + SET_JERK), 3000 + k);
    check(tally, "set.snap", word(both, set + SET_SNAP), 4000 + k);
  }
  for (size_t k = 0; k < MOST_MOVES; k++) {
    const size_t move = SHEET_MOVES + k * ROUTE_SIZE;
    check(tally, "move.displacement", word(both, move + ROUTE_DISPLACEMENT), (uint64_t)(-5000 - (int64_t)k));
    check(tally, "move.set", word(both, move + ROUTE_SET), 1 + k % MOST_SETS);
  }
}

static void check_sheet_refusal(checks *tally, areas *both, char *text) {
  text[strlen(text) - 1] = 'x';
  CALL_TWICE(both, nitswolan_read_sheet, (const uint8_t *)text, strlen(text));
  check_extent(tally, "bytes of a refused sheet", both, SHEET_SIZE);
  check(tally, "sheet.refusal", word(both, SHEET_REFUSAL), 11);
  check(tally, "sheet.line", word(both, SHEET_LINE), 274);
  check_zeros(tally, "the rest of a refused sheet", both, SHEET_SET_COUNT, SHEET_SIZE);
}

void check_sheets(checks *tally) {
  areas both;
  char text[8192];
  full_sheet(text);
  CALL_TWICE(&both, nitswolan_read_sheet, (const uint8_t *)text, strlen(text));
  check_extent(tally, "bytes of a sheet", &both, SHEET_SIZE);
  check_listed(tally, &both);
  check_sheet_refusal(tally, &both, text);
}
