/* The parts of the figure. Lengths are whole hundredths of a pixel where they are not whole pixels, so the file is the same on every
 * machine. */
#ifndef DRAWING_H
#define DRAWING_H

#include "profile.h"

/* The layout in pixels: the panels lie between LEFT and RIGHT, and between TOP and BOTTOM. */
enum { WIDTH = 860, LEFT = 124, RIGHT = 716, TOP = 76, BOTTOM = 788 };

/* Hundredths in a pixel. */
enum { PIXEL = 100 };

/* What a value does between a sample and the next: it runs straight to the next, or stays until then. */
typedef enum { RUNNING, HELD } between_samples;

/* A panel shows one of the five values. `sign` is that of its bound that is named in full; where it is not `both_ways`, all values have
 * this sign or are 0. `origin` is the value on its line of zero: 0, or the start for the position. `bound` is the size that the move sets,
 * and `full` the size that reaches the end of the panel, both from the origin. The position has no bound: there it is the distance, and the
 * name is NULL. */
typedef struct {
  const char *name;
  const char *unit;
  const char *bound_name;
  int top;
  int height;
  between_samples between;
  int sign;
  int both_ways;
  int64_t (*value)(const nitswolan_sample_result *sample);
  int64_t origin;
  int64_t bound;
  int64_t full;
} panel;

/* `length` times `size / full`, to the nearest, halves up; 0 <= size <= full, 0 < full, and the length at most 2^16. */
int64_t part_of(int64_t size, int64_t full, int64_t length);

/* Where a sample lies from the left, and a value of a panel from the top, in hundredths. */
int64_t across(uint64_t sample, uint64_t samples);
int64_t down(const panel *shown, int64_t value);

/* Hundredths as pixels, without zeros that say nothing. */
void print_pixels(int64_t hundredths);

/* Units as a decimal of counts, in six digits, or fewer of very small numbers. */
void print_decimal(uint64_t units);

/* The beginning of a figure of this height, with what it shows in one line, and its end. The title is XML as it stands. */
void open_figure(int height, const char *title);
void close_figure(void);

/* The fifteen segments of constant snap, shaded and named by their durations. */
void draw_segments(const nitswolan_plan_result *plan);

/* All panels; and of one panel its frame, the lines of its bound, and its curve. */
void draw_panels(const profile *drawn);
void draw_frame(const panel *shown);
void draw_bounds(const panel *shown);
void draw_curve(const panel *shown, const profile *drawn);

/* The axis of samples below the panels. */
void draw_axis(uint64_t samples);

#endif
