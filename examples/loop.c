/* Fills the reference table of a move for a feedback loop, and shows how far each row is behind the position; then shows that as many
 * places as there are positions are too few, and that in third order, in which this move takes one sample less, they are enough. */
#include "nitswolan.h"

#include <inttypes.h>
#include <stdio.h>

static void print_refusal(const char *what, uint64_t refusal) {
  printf("%s: refused %" PRIu64 ", %s\n", what, refusal, nitswolan_refusal_text(refusal));
}

/* At the tick of sample k a loop would subtract twice the position that it measures from row k: that is its error, in doubled units. A row
 * is behind twice the position by the velocity one sample before. At a steady speed that is half a sample, as late as what is measured. */
static void print_rows(const int64_t *reference, const int64_t *positions, uint64_t samples) {
  printf("row       reference        position         behind\n");
  for (uint64_t k = 0; k <= samples + 1; k++) {
    const int64_t position = positions[k <= samples ? k : samples];
    printf("%3" PRIu64 "  %14" PRId64 "  %14" PRId64 "  %13" PRId64 "\n", k, reference[k], position, 2 * position - reference[k]);
  }
}

int main(void) {
  static int64_t reference[NITSWOLAN_MOST_REFERENCE];
  static int64_t positions[NITSWOLAN_MOST_POSITIONS];
  const uint64_t count = (uint64_t)NITSWOLAN_UNITS_PER_COUNT;
  const nitswolan_move move = {16, 2 * count, count, count, count, 0};
  const uint64_t samples = nitswolan_plan_move(move).samples;
  nitswolan_table_result filled = nitswolan_fill_reference(move, reference, NITSWOLAN_MOST_REFERENCE);

  /* With tables that are long enough for every move, the plan and the positions have no other refusal. */
  if (filled.refusal != 0) {
    print_refusal("table", filled.refusal);
    return 1;
  }
  printf("move: %" PRId64 " counts in %" PRIu64 " samples, %" PRIu64 " rows\n", move.displacement, samples, filled.rows);
  nitswolan_fill_positions(move, positions, NITSWOLAN_MOST_POSITIONS);
  print_rows(reference, positions, samples);

  /* Samples 0 to 12 have thirteen positions, but fourteen rows: nothing is written. */
  filled = nitswolan_fill_reference(move, reference, 13);
  print_refusal("thirteen places", filled.refusal);
  filled = nitswolan_fill_reference_third(move, reference, 13);
  printf("third order, thirteen places: %" PRIu64 " rows, the last %" PRId64 "\n", filled.rows, reference[12]);
  return 0;
}
