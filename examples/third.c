/* Plans a move of an old stall, whose drive has no bound on the snap, in third order; fills a position table and plays it to the screen
 * sample by sample; then shows that the bound on the snap is not read, and a refusal. */
#include "nitswolan.h"

#include <inttypes.h>
#include <stdio.h>

static void print_refusal(const char *what, uint64_t refusal) {
  printf("%s: refused %" PRIu64 ", %s\n", what, refusal, nitswolan_refusal_text(refusal));
}

static int print_plan(const char *what, nitswolan_move move) {
  const nitswolan_third_plan_result plan = nitswolan_plan_third(move);
  if (plan.refusal != 0) {
    print_refusal(what, plan.refusal);
    return 0;
  }
  printf("%s: %" PRId64 " counts in %" PRIu64 " samples, ", what, move.displacement, plan.samples);
  printf("b %" PRIu64 ", c %" PRIu64 ", e %" PRIu64 ", ", plan.b, plan.c, plan.e);
  printf("jerk %" PRIu64 ", shortfall %" PRIu64 "\n", plan.jerk, plan.shortfall);
  return 1;
}

/* A drive would send table[k] to its axis at the tick of sample k. */
static void play(nitswolan_move move, const int64_t *table, uint64_t rows) {
  printf("sample        position  count            jerk    acceleration       velocity\n");
  for (uint64_t k = 0; k < rows; k++) {
    const nitswolan_sample_result now = nitswolan_sample_third(move, k);
    printf("%6" PRIu64 "  %14" PRId64 "  %5" PRId64 "  %14" PRId64 "  %14" PRId64 "  %13" PRId64 "\n", k, table[k], now.count, now.jerk,
           now.acceleration, now.velocity);
  }
}

int main(void) {
  static int64_t table[NITSWOLAN_MOST_POSITIONS];
  const uint64_t count = (uint64_t)NITSWOLAN_UNITS_PER_COUNT;
  nitswolan_move move = {10, 2 * count, count, count, count, 0};
  nitswolan_table_result filled;

  if (!print_plan("third order", move)) {
    return 1;
  }
  filled = nitswolan_fill_positions_third(move, table, NITSWOLAN_MOST_POSITIONS);
  if (filled.refusal != 0) {
    print_refusal("table", filled.refusal);
    return 1;
  }
  play(move, table, filled.rows);

  /* The same move takes another number of samples in fourth order, which alone reads the bound on the snap. */
  printf("fourth order: %" PRIu64 " samples\n", nitswolan_plan_move(move).samples);
  move.snap = 0;
  print_plan("third order, snap 0", move);
  print_refusal("fourth order, snap 0", nitswolan_plan_move(move).refusal);
  move.jerk = 0;
  print_plan("third order, jerk 0", move);
  return 0;
}
