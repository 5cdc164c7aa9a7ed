/* Holds the header's structs and the library's to one table of sizes and offsets; exits 1 with each misfit named. */
#include "checks.h"

int main(void) {
  checks tally = {0, 0};
  check_header(&tally);
  check_arguments(&tally);
  check_answers(&tally);
  check_axes(&tally);
  check_sheets(&tally);
  check_empty(&tally);
  check_longest(&tally);
  check_earlier(&tally);
  check_rows_as_counts(&tally);
  if (tally.failed > 0) {
    printf("layout: %u of %u checks failed\n", tally.failed, tally.failed + tally.passed);
    return 1;
  }
  printf("layout: %u checks passed\n", tally.passed);
  return 0;
}
