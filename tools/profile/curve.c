/* The curve of a panel, and its samples as dots. */
#include "drawing.h"

#include <stdio.h>

/* Above this many samples the dots would cover the curve. */
enum { MOST_DOTS = 120 };

/* A sample is left out where the curve passes it as near as this without it, in hundredths. */
enum { TOLERANCE = 5 };

typedef struct {
  int64_t x;
  int64_t y;
} point;

/* So far down for so far across: 1 for 0 is the slope of a line straight down, and -1 for 0 of one straight up. */
typedef struct {
  int64_t dy;
  int64_t dx;
} slope;

/* A straight line in the making: where it begins, the last sample that it reaches, and between which slopes it passes near all samples
 * from the one to the other. */
typedef struct {
  point from;
  point last;
  slope least;
  slope most;
} line;

static point point_of(const panel *shown, const profile *drawn, uint64_t k) {
  const point place = {across(k, drawn->plan.samples), down(shown, shown->value(&drawn->samples[k]))};
  return place;
}

static void print_point(char command, point place) {
  printf("%c", command);
  print_pixels(place.x);
  printf(" ");
  print_pixels(place.y);
}

static int is_less(slope one, slope other) {
  return one.dy * other.dx < other.dy * one.dx;
}

static line line_from(point place) {
  const line none = {place, place, {-1, 0}, {1, 0}};
  return none;
}

static slope slope_to(const line *drawn, point place, int lower) {
  const slope found = {place.y + lower - drawn->from.y, place.x - drawn->from.x};
  return found;
}

/* Whether the line may go on to this point, with all that it passes still near. */
static int reaches(const line *drawn, point place) {
  const slope straight = slope_to(drawn, place, 0);
  return !is_less(straight, drawn->least) && !is_less(drawn->most, straight);
}

static void go_on(line *drawn, point place) {
  const slope least = slope_to(drawn, place, -TOLERANCE);
  const slope most = slope_to(drawn, place, TOLERANCE);
  drawn->last = place;
  drawn->least = is_less(drawn->least, least) ? least : drawn->least;
  drawn->most = is_less(most, drawn->most) ? most : drawn->most;
}

/* From sample to sample the value runs straight, since it grows by the next derivative. */
static void draw_running(const panel *shown, const profile *drawn) {
  line now = line_from(point_of(shown, drawn, 0));
  print_point('M', now.from);
  for (uint64_t k = 1; k <= drawn->plan.samples; k++) {
    const point next = point_of(shown, drawn, k);
    if (!reaches(&now, next)) {
      print_point('L', now.last);
      now = line_from(now.last);
    }
    go_on(&now, next);
  }
  print_point('L', now.last);
}

/* The value stays until the next sample, so there is a corner only where it changes. */
static void draw_held(const panel *shown, const profile *drawn) {
  point last = point_of(shown, drawn, 0);
  print_point('M', last);
  for (uint64_t k = 1; k <= drawn->plan.samples; k++) {
    const point next = point_of(shown, drawn, k);
    if (next.y != last.y || k == drawn->plan.samples) {
      printf("H");
      print_pixels(next.x);
      printf("V");
      print_pixels(next.y);
    }
    last = next;
  }
}

static void draw_dots(const panel *shown, const profile *drawn) {
  printf("<path class=\"dots\" d=\"");
  for (uint64_t k = 0; k <= drawn->plan.samples; k++) {
    print_point('M', point_of(shown, drawn, k));
    printf("h0");
  }
  printf("\"/>\n");
}

void draw_curve(const panel *shown, const profile *drawn) {
  printf("<path class=\"curve\" d=\"");
  if (shown->between == HELD) {
    draw_held(shown, drawn);
  } else {
    draw_running(shown, drawn);
  }
  printf("\"/>\n");
  if (drawn->plan.samples <= MOST_DOTS) {
    draw_dots(shown, drawn);
  }
}
