/* Plans a move, fills a position table, and plays it to the screen sample by sample; hands over to the next move and from that to another,
 * each of which begins at the count where the one before it ended; then shows two refusals. */
#include "nitswolan.h"

#include <inttypes.h>
#include <stdio.h>

static void print_refusal(const char *what, uint64_t refusal) {
  printf("%s: refused %" PRIu64 ", %s\n", what, refusal, nitswolan_refusal_text(refusal));
}

static int print_plan(nitswolan_move move) {
  const nitswolan_plan_result plan = nitswolan_plan_move(move);
  if (plan.refusal != 0) {
    print_refusal("plan", plan.refusal);
    return 0;
  }
  printf("plan: %" PRId64 " counts in %" PRIu64 " samples\n", move.displacement, plan.samples);
  printf("intervals: a %" PRIu64 ", b %" PRIu64 ", c %" PRIu64 ", e %" PRIu64 "\n", plan.a, plan.b, plan.c, plan.e);
  printf("snap: %" PRIu64 " units, shortfall: %" PRIu64 " units\n", plan.snap, plan.shortfall);
  return 1;
}

/* The rail, from count 0 to the end of the move, with the bottle on it. */
static void print_rail(int64_t bottle, int64_t end) {
  for (int64_t count = 0; count <= end; count++) {
    putchar(count == bottle ? 'U' : '.');
  }
  putchar('\n');
}

/* A drive would send table[k] to its axis at the tick of sample k. */
static void play(nitswolan_move move, const int64_t *table, uint64_t rows) {
  printf("sample       position  count       velocity  rail\n");
  for (uint64_t k = 0; k < rows; k++) {
    const nitswolan_sample_result now = nitswolan_sample_move(move, k);
    printf("%6" PRIu64 "  %13" PRId64 "  %5" PRId64 "  %13" PRId64 "  ", k, table[k], now.count, now.velocity);
    print_rail(now.count, move.start + move.displacement);
  }
}

/* The next move begins at the end count of this one, so the counts join. The positions join but for the shortfall of this one. */
static int hand_over(nitswolan_move *move, int64_t displacement) {
  const nitswolan_plan_result plan = nitswolan_plan_move(*move);
  const nitswolan_sample_result last = nitswolan_sample_move(*move, plan.samples);
  nitswolan_sample_result first;

  move->start += move->displacement;
  move->displacement = displacement;
  if (!print_plan(*move)) {
    return 0;
  }
  first = nitswolan_sample_move(*move, 0);
  printf("hand-over: count %" PRId64 " to %" PRId64 ", ", last.count, first.count);
  printf("%" PRId64 " units from position to position, shortfall %" PRIu64 "\n", first.position - last.position, plan.shortfall);
  return 1;
}

int main(void) {
  static int64_t table[NITSWOLAN_MOST_POSITIONS];
  const uint64_t count = (uint64_t)NITSWOLAN_UNITS_PER_COUNT;
  nitswolan_move move = {8, 2 * count, count, count, count, 0};
  nitswolan_move next;
  nitswolan_table_result filled;

  if (!print_plan(move)) {
    return 1;
  }
  filled = nitswolan_fill_positions(move, table, NITSWOLAN_MOST_POSITIONS);
  if (filled.refusal != 0) {
    print_refusal("table", filled.refusal);
    return 1;
  }
  play(move, table, filled.rows);
  next = move;
  if (!hand_over(&next, 9) || !hand_over(&next, -9)) {
    return 1;
  }

  /* Eight places are one too few for samples 0 to 8: nothing is written. */
  filled = nitswolan_fill_positions(move, table, 8);
  print_refusal("eight places", filled.refusal);
  move.displacement = 0;
  print_refusal("no displacement", nitswolan_plan_move(move).refusal);
  return 0;
}
