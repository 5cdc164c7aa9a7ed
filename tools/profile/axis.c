/* The axis of samples below the panels. */
#include "drawing.h"

#include <inttypes.h>
#include <stdio.h>

enum { MOST_TICKS = 12 };

/* The first of 1, 2, 5, 10, 20, 50 and so on that leaves at most MOST_TICKS; since the next is at most 2.5 times as much, at least 5. */
static uint64_t tick_step(uint64_t samples) {
  uint64_t step = 1;
  int leading = 1;
  while (samples / step >= MOST_TICKS) {
    step = leading == 2 ? step / 2 * 5 : 2 * step;
    leading = leading == 1 ? 2 : leading == 2 ? 5 : 1;
  }
  return step;
}

static void draw_tick(uint64_t sample, uint64_t samples) {
  printf("<path class=\"zero\" d=\"M");
  print_pixels(across(sample, samples));
  printf(" %dv5\"/>\n<text class=\"mark\" x=\"", BOTTOM);
  print_pixels(across(sample, samples));
  printf("\" y=\"%d\">%" PRIu64 "</text>\n", BOTTOM + 19, sample);
}

void draw_axis(uint64_t samples) {
  const uint64_t step = tick_step(samples);
  for (uint64_t sample = 0; sample <= samples; sample += step) {
    draw_tick(sample, samples);
  }
  printf("<text class=\"mark\" x=\"%d\" y=\"%d\">sample</text>\n", (LEFT + RIGHT) / 2, BOTTOM + 38);
}
