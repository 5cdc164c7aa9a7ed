/* From the rows of a table to counts, as docs/C.md has it: they are the counts of the samples, halves away from the start too. */
#include "nitswolan.h"

#include "checks.h"

static const int64_t half = NITSWOLAN_UNITS_PER_COUNT / 2;

static int64_t count_of(int64_t displacement, int64_t row) {
  return displacement > 0 ? (row + half) >> 40 : -((half - row) >> 40);
}

static void check_rows(checks *tally, nitswolan_move move) {
  static int64_t table[NITSWOLAN_MOST_POSITIONS];
  const uint64_t rows = nitswolan_fill_positions(move, table, NITSWOLAN_MOST_POSITIONS).rows;
  check(tally, "rows of a move to be counted", rows > 0, 1);
  for (uint64_t k = 0; k < rows; k++) {
    const int64_t count = nitswolan_sample_move(move, k).count;
    check(tally, "the count of a row", (uint64_t)count_of(move.displacement, table[k]), (uint64_t)count);
  }
}

/* The second move to check by, which is half a count from its start at sample 4; and one with a shortfall. */
void check_rows_as_counts(checks *tally) {
  const uint64_t bound = (uint64_t)NITSWOLAN_UNITS_PER_COUNT;
  for (int64_t start = -9; start <= 9; start += 3) {
    check_rows(tally, (nitswolan_move){8, bound, bound, bound, bound, start});
    check_rows(tally, (nitswolan_move){-8, bound, bound, bound, bound, start});
    check_rows(tally, (nitswolan_move){9, 2 * bound, bound, bound, bound, start});
    check_rows(tally, (nitswolan_move){-9, 2 * bound, bound, bound, bound, start});
  }
}
