/* A table or a text of no places may be NULL; and a report leaves the bytes behind it alone. */
#include "nitswolan.h"

#include "checks.h"
#include <string.h>

static void check_tables(checks *tally, int64_t displacement, uint64_t refusal) {
  const uint64_t count = (uint64_t)NITSWOLAN_UNITS_PER_COUNT;
  const nitswolan_move move = {displacement, 2 * count, count, count, count, 0};
  const nitswolan_machine machine = {2, 0, 0, 0, 0, 1};
  check(tally, "positions at NULL", nitswolan_fill_positions(move, NULL, 0).refusal, refusal);
  check(tally, "reference at NULL", nitswolan_fill_reference(move, NULL, 0).refusal, refusal);
  check(tally, "forces at NULL", nitswolan_fill_force(move, machine, NULL, 0).refusal, refusal);
  check(tally, "third-order positions at NULL", nitswolan_fill_positions_third(move, NULL, 0).refusal, refusal);
  check(tally, "third-order reference at NULL", nitswolan_fill_reference_third(move, NULL, 0).refusal, refusal);
}

void check_empty(checks *tally) {
  static const char printed[] = "sheet refused 11 line 1\n";
  nitswolan_report_buffer report;
  const nitswolan_sheet_result sheet = nitswolan_read_sheet(NULL, 0);
  size_t kept = 0;
  check_tables(tally, 0, NITSWOLAN_NO_DISPLACEMENT);
  check_tables(tally, 8, NITSWOLAN_SHORT_TABLE);
  check(tally, "refusal of a text at NULL", sheet.refusal, NITSWOLAN_SHEET_MALFORMED);
  check(tally, "line of a text at NULL", sheet.line, 1);
  memset(&report, 0x55, sizeof report);
  check(tally, "bytes of a report", nitswolan_report(NULL, 0, &report), strlen(printed));
  check(tally, "a report", memcmp(report.bytes, printed, strlen(printed)) == 0, 1);
  for (size_t k = strlen(printed); k < sizeof report.bytes; k++) {
    kept += report.bytes[k] == 0x55;
  }
  check(tally, "bytes behind a report", kept, sizeof report.bytes - strlen(printed));
}
