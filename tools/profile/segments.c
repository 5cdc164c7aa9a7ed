/* The segments of constant snap: p, q, p, r, p, q, p, s, p, q, p, r, p, q, p. */
#include "drawing.h"

#include <stdio.h>

/* How many there are, and the room in hundredths that a name takes. */
enum { SEGMENTS = 15, NAME_ROOM = 10 * PIXEL };

/* A segment from its first sample to its last, in hundredths from the left. */
typedef struct {
  int64_t from;
  int64_t to;
} segment;

static uint64_t duration(const nitswolan_plan_result *plan, int number) {
  if (number % 2 == 0) {
    return plan->a;
  }
  if (number % 4 == 1) {
    return plan->b - plan->a;
  }
  return number == SEGMENTS / 2 ? plan->e - plan->a - plan->b - plan->c : plan->c - plan->a - plan->b;
}

/* The places of all segments; one of duration 0 has no width. */
static void place_segments(const nitswolan_plan_result *plan, segment *segments) {
  uint64_t sample = 0;
  for (int number = 0; number < SEGMENTS; number++) {
    segments[number].from = across(sample, plan->samples);
    sample += duration(plan, number);
    segments[number].to = across(sample, plan->samples);
  }
}

static int is_empty(const segment *shown) {
  return shown->from == shown->to;
}

static int64_t middle(const segment *shown) {
  return (shown->from + shown->to) / 2;
}

/* Whether the nearest segment on one side, -1 or 1, leaves room for a name in the middle of this one. */
static int has_room(const segment *segments, int number, int side) {
  int next = number + side;
  while (next >= 0 && next < SEGMENTS && is_empty(&segments[next])) {
    next += side;
  }
  if (next < 0 || next >= SEGMENTS) {
    return 1;
  }
  return side * (middle(&segments[next]) - middle(&segments[number])) >= NAME_ROOM;
}

/* Two names that both fit are NAME_ROOM apart: either both segments are as wide as that, or one of them looked. */
static int name_fits(const segment *segments, int number) {
  const segment *named = &segments[number];
  return named->to - named->from >= NAME_ROOM || (has_room(segments, number, -1) && has_room(segments, number, 1));
}

/* Shades a segment in which the snap is not 0. */
static void draw_shade(const segment *shown) {
  printf("<rect fill=\"#eef2f8\" x=\"");
  print_pixels(shown->from);
  printf("\" y=\"%d\" width=\"", TOP);
  print_pixels(shown->to - shown->from);
  printf("\" height=\"%d\"/>\n", BOTTOM - TOP);
}

static void draw_border(const segment *shown) {
  printf("<path class=\"border\" d=\"M");
  print_pixels(shown->from);
  printf(" %dV%d\"/>\n", TOP, BOTTOM);
}

static void draw_name(const segment *shown, char name) {
  printf("<text class=\"mark\" x=\"");
  print_pixels(middle(shown));
  printf("\" y=\"%d\">%c</text>\n", TOP - 6, name);
}

void draw_segments(const nitswolan_plan_result *plan) {
  static const char names[] = "pqprpqpspqprpqp";
  segment segments[SEGMENTS];
  place_segments(plan, segments);
  for (int number = 0; number < SEGMENTS; number++) {
    if (is_empty(&segments[number])) {
      continue;
    }
    if (number % 2 == 0) {
      draw_shade(&segments[number]);
    }
    draw_border(&segments[number]);
    if (name_fits(segments, number)) {
      draw_name(&segments[number], names[number]);
    }
  }
}
