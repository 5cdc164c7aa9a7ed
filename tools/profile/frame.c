/* A panel's frame, its line of zero, and the lines of its bound. */
#include "drawing.h"

#include <inttypes.h>
#include <stdio.h>

/* How far a text's baseline lies below the line that it names, and below the text's line before it, in hundredths. */
enum { BASELINE = 4 * PIXEL, LINE = 16 * PIXEL };

/* A line across the panel at a value. */
static void draw_line(const panel *shown, const char *kind, int64_t value) {
  printf("<path class=\"%s\" d=\"M%d ", kind, LEFT);
  print_pixels(down(shown, value));
  printf("H%d\"/>\n", RIGHT);
}

/* Begins a text left or right of the panel; the caller writes what it says. */
static void open_left(int64_t baseline) {
  printf("<text class=\"tick\" x=\"%d\" y=\"", LEFT - 6);
  print_pixels(baseline);
  printf("\">");
}

static void open_right(const char *kind, int64_t baseline) {
  printf("<text class=\"%s-label\" x=\"%d\" y=\"", kind, RIGHT + 8);
  print_pixels(baseline);
  printf("\">");
}

static void close_text(void) {
  printf("</text>\n");
}

void draw_frame(const panel *shown) {
  printf("<rect class=\"frame\" x=\"%d\" y=\"%d\" width=\"%d\" height=\"%d\"/>\n", LEFT, shown->top, RIGHT - LEFT, shown->height);
  draw_line(shown, "zero", shown->origin);
  open_left(down(shown, shown->origin) + BASELINE);
  printf("%" PRId64, shown->origin / NITSWOLAN_UNITS_PER_COUNT);
  close_text();
  printf("<text class=\"name\" x=\"10\" y=\"%d\">%s</text>\n", shown->top + 40, shown->name);
  printf("<text class=\"unit\" x=\"10\" y=\"%d\">%s</text>\n", shown->top + 56, shown->unit);
}

/* Where a move ends, by its displacement. The curve ends before it, by the shortfall. */
static void draw_end(const panel *shown) {
  const int64_t end = shown->origin + shown->sign * shown->bound;
  draw_line(shown, "end", end);
  open_right("end", down(shown, end) + BASELINE);
  printf("end = %" PRId64, end / NITSWOLAN_UNITS_PER_COUNT);
  close_text();
}

/* The bound's name and number; below zero both have a minus. */
static void draw_bound_label(const panel *shown, int64_t baseline) {
  const char *minus = shown->sign < 0 ? "-" : "";
  open_right("bound", baseline);
  printf("%s%s = %s", minus, shown->bound_name, minus);
  print_decimal((uint64_t)shown->bound);
  close_text();
}

static void draw_bound(const panel *shown) {
  const int64_t bound = shown->sign * shown->bound;
  draw_line(shown, "bound", bound);
  draw_bound_label(shown, down(shown, bound) + BASELINE);
  if (shown->both_ways) {
    draw_line(shown, "bound", -bound);
    open_right("bound", down(shown, -bound) + BASELINE);
    printf("-%s", shown->bound_name);
    close_text();
  }
}

/* The bound lies outside of the panel: its end is the peak, whose number stands on the left. */
static void draw_peak(const panel *shown) {
  const int64_t peak = shown->sign * shown->full;
  const int64_t baseline = down(shown, peak) + BASELINE;
  draw_line(shown, "end", peak);
  open_left(baseline);
  printf("%s", shown->sign < 0 ? "-" : "");
  print_decimal((uint64_t)shown->full);
  close_text();
  draw_bound_label(shown, baseline);
  open_right("bound", baseline + LINE);
  printf("%s", shown->sign < 0 ? "(below)" : "(above)");
  close_text();
  if (shown->both_ways) {
    draw_line(shown, "end", -peak);
  }
}

void draw_bounds(const panel *shown) {
  if (shown->bound_name == NULL) {
    draw_end(shown);
  } else if (shown->bound > shown->full) {
    draw_peak(shown);
  } else {
    draw_bound(shown);
  }
}
