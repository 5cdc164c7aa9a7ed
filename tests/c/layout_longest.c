/* The longest moves fill as many places as the header says, and the farthest ones, in way or in start, have the largest reference rows. */
#include "nitswolan.h"

#include "checks.h"

static const uint64_t count = (uint64_t)NITSWOLAN_UNITS_PER_COUNT;

/* Moves of 4,096 samples, the most. */
static void check_places(checks *tally) {
  static int64_t table[NITSWOLAN_MOST_REFERENCE];
  static double forces[NITSWOLAN_MOST_FORCES];
  const nitswolan_move move = {4092, count, count, count, count, 0};
  const nitswolan_move third = {4094, count, count, count, count, 0};
  const nitswolan_machine machine = {2, 0, 0, 0, 0, 1};
  check(tally, "most positions", nitswolan_fill_positions(move, table, NITSWOLAN_MOST_POSITIONS).rows, NITSWOLAN_MOST_POSITIONS);
  check(tally, "most reference rows", nitswolan_fill_reference(move, table, NITSWOLAN_MOST_REFERENCE).rows, NITSWOLAN_MOST_REFERENCE);
  check(tally, "most forces", nitswolan_fill_force(move, machine, forces, NITSWOLAN_MOST_FORCES).rows, NITSWOLAN_MOST_FORCES);
  check(tally, "most third-order positions", nitswolan_fill_positions_third(third, table, NITSWOLAN_MOST_POSITIONS).rows,
        NITSWOLAN_MOST_POSITIONS);
  check(tally, "most third-order reference rows", nitswolan_fill_reference_third(third, table, NITSWOLAN_MOST_REFERENCE).rows,
        NITSWOLAN_MOST_REFERENCE);
}

/* Moves of 2^20 counts with the widest bounds, from 0 to 2^60 units or from there to 0: they end at sample 1,028, or 1,026 in third
 * order. */
static void check_farthest(checks *tally, int64_t start, int64_t end) {
  static int64_t table[NITSWOLAN_MOST_REFERENCE];
  const uint64_t bound = UINT64_C(1) << 50;
  const nitswolan_move move = {end - start, bound, bound, bound, bound, start};
  const uint64_t first = (uint64_t)(2 * start) * count;
  const uint64_t last = (uint64_t)(2 * end) * count;
  check(tally, "farthest reference rows", nitswolan_fill_reference(move, table, NITSWOLAN_MOST_REFERENCE).rows, 1030);
  check(tally, "farthest reference row 0", (uint64_t)table[0], first);
  check(tally, "farthest reference row", (uint64_t)table[1029], last);
  check(tally, "farthest third-order reference rows", nitswolan_fill_reference_third(move, table, NITSWOLAN_MOST_REFERENCE).rows, 1028);
  check(tally, "farthest third-order reference row 0", (uint64_t)table[0], first);
  check(tally, "farthest third-order reference row", (uint64_t)table[1027], last);
}

void check_longest(checks *tally) {
  check_places(tally);
  for (int64_t farthest = -1048576; farthest <= 1048576; farthest += 2097152) {
    check_farthest(tally, 0, farthest);
    check_farthest(tally, farthest, 0);
  }
}
