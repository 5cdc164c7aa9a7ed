/* Plans rail, lift and gripper together, so that they start and arrive at the same samples, and plays them to the screen sample by sample;
 * then shows a set that is refused for one of its axes. */
#include "nitswolan.h"

#include <inttypes.h>
#include <stdio.h>

enum { AXES = 3 };

static const char *const names[AXES] = {"rail", "lift", "gripper"};

static void print_plans(nitswolan_axes axes, nitswolan_axes_plan_result planned) {
  printf("set: %d axes in %" PRIu64 " samples\n", AXES, planned.samples);
  printf("axis     counts  a  b  c   e          snap  shortfall\n");
  for (int i = 0; i < AXES; i++) {
    const nitswolan_plan plan = planned.plans[i];
    printf("%-7s  %6" PRId64 "  %" PRIu64 "  %" PRIu64 "  %" PRIu64 "  %2" PRIu64 "  %12" PRIu64 "  %9" PRIu64 "\n", names[i],
           axes.moves[i].displacement, plan.a, plan.b, plan.c, plan.e, plan.snap, plan.shortfall);
  }
}

/* A drive would send each axis its count at the tick of sample k, and a bench would log the remainder: how far the position is from that
 * count, in units. Nothing is refused: the set was accepted, and k is from 0 to its N. */
static void play(nitswolan_axes axes, uint64_t samples) {
  printf("sample  rail      remainder  lift      remainder  gripper      remainder\n");
  for (uint64_t k = 0; k <= samples; k++) {
    const nitswolan_axes_sample_result now = nitswolan_sample_axes(axes, k);
    const nitswolan_sample rail = now.values[0], lift = now.values[1], gripper = now.values[2];
    printf("%6" PRIu64 "  %4" PRId64 "  %13" PRId64 "  %4" PRId64 "  %13" PRId64 "  %7" PRId64 "  %13" PRId64 "\n", k, rail.count,
           rail.remainder, lift.count, lift.remainder, gripper.count, gripper.remainder);
  }
}

/* The axis that is refused is named by its place, from 1. */
static void print_refusal(nitswolan_axes_plan_result planned) {
  printf("set: refused %" PRIu64 ", %s", planned.refusal, nitswolan_refusal_text(planned.refusal));
  if (planned.place != 0) {
    printf(" (the %s, axis %" PRIu64 ")", names[planned.place - 1], planned.place);
  }
  putchar('\n');
}

int main(void) {
  const uint64_t count = (uint64_t)NITSWOLAN_UNITS_PER_COUNT;
  nitswolan_axes axes = {
    AXES,
    {
      {32, 4 * count, 2 * count, count, count, 0},
      {-8, 2 * count, count, count, count, 0},
      {3, count / 2, count / 2, count / 2, count / 2, 0},
    },
  };
  const nitswolan_axes_plan_result planned = nitswolan_plan_axes(axes);
  if (planned.refusal != 0) {
    print_refusal(planned);
    return 1;
  }
  print_plans(axes, planned);
  play(axes, planned.samples);

  /* An axis that stays at rest needs bounds in range too. */
  axes.moves[1].displacement = 0;
  axes.moves[1].jerk = 0;
  print_refusal(nitswolan_plan_axes(axes));
  return 0;
}
