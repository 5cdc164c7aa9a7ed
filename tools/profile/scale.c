/* From samples and values to places in the figure. */
#include "drawing.h"

/* The room in pixels between a panel's frame and the lines of its zero and its full size. */
enum { ROOM = 14 };

/* Sizes reach 2^60. Both lose their low bits until the product fits; what is left of 44 bits is far finer than a hundredth of a pixel. */
int64_t part_of(int64_t size, int64_t full, int64_t length) {
  while (full >> 44 != 0) {
    full >>= 1;
    size >>= 1;
  }
  return (2 * size * length + full) / (2 * full);
}

int64_t across(uint64_t sample, uint64_t samples) {
  return PIXEL * LEFT + part_of((int64_t)sample, (int64_t)samples, PIXEL * (RIGHT - LEFT));
}

/* The line of zero is in the middle, or at the end that the values move away from. */
static int zero_line(const panel *shown) {
  if (shown->both_ways) {
    return shown->top + shown->height / 2;
  }
  return shown->sign < 0 ? shown->top + ROOM : shown->top + shown->height - ROOM;
}

int64_t down(const panel *shown, int64_t value) {
  const int length = shown->both_ways ? shown->height / 2 - ROOM : shown->height - 2 * ROOM;
  const int64_t from_origin = value - shown->origin;
  const int64_t away = part_of(from_origin < 0 ? -from_origin : from_origin, shown->full, PIXEL * length);
  return PIXEL * zero_line(shown) + (from_origin < 0 ? away : -away);
}
