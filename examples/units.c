/* From millimetres and seconds to the numbers of a move, exactly, for a drive with 100 counts per millimetre and a sample each millisecond;
 * then how long the move takes. The README and the header show the same numbers. */
#include "nitswolan.h"

#include <inttypes.h>
#include <stdio.h>

enum { COUNTS_PER_MM = 100, SAMPLES_PER_SECOND = 1000 };

/* value * 2^40 / divisor, rounded down, bit by bit, since the product may pass 64 bits; the divisor is below 2^63. From 2^64 on, and every
 * bound above 2^50 is refused, it is the greatest number. */
static uint64_t in_units(uint64_t value, uint64_t divisor) {
  uint64_t quotient = value / divisor;
  uint64_t rest = value % divisor;
  if (quotient >> 24 != 0) {
    return UINT64_MAX;
  }
  for (int bit = 0; bit < 40; bit++) {
    const int carry = 2 * rest >= divisor;
    quotient = 2 * quotient + (carry ? 1 : 0);
    rest = 2 * rest - (carry ? divisor : 0);
  }
  return quotient;
}

/* A bound in mm/s, mm/s^2, .. by the power of the second. Rounded down it is not passed; one that comes to 0 is refused. */
static uint64_t units_of(uint64_t bound, int power) {
  uint64_t divisor = 1;
  for (int i = 0; i < power; i++) {
    divisor *= SAMPLES_PER_SECOND;
  }
  return in_units(bound * COUNTS_PER_MM, divisor);
}

static void print_line(uint64_t given, const char *unit, const char *field, uint64_t sent) {
  printf("%6" PRIu64 " %-6s  %-12s  %" PRIu64 "\n", given, unit, field, sent);
}

int main(void) {
  const uint64_t distance = 300, velocity = 500, acceleration = 2000, jerk = 20000, snap = 400000;
  const nitswolan_move move = {
    (int64_t)(distance * COUNTS_PER_MM), units_of(velocity, 1), units_of(acceleration, 2), units_of(jerk, 3), units_of(snap, 4), 0,
  };
  const nitswolan_plan_result plan = nitswolan_plan_move(move);
  print_line(distance, "mm", "displacement", (uint64_t)move.displacement);
  print_line(velocity, "mm/s", "velocity", move.velocity);
  print_line(acceleration, "mm/s^2", "acceleration", move.acceleration);
  print_line(jerk, "mm/s^3", "jerk", move.jerk);
  print_line(snap, "mm/s^4", "snap", move.snap);
  if (plan.refusal != 0) {
    printf("refused %" PRIu64 ": %s\n", plan.refusal, nitswolan_refusal_text(plan.refusal));
    return 1;
  }
  printf("%" PRIu64 " samples, %.3f s\n", plan.samples, (double)plan.samples / SAMPLES_PER_SECOND);
  return 0;
}
