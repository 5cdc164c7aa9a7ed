/* The figure of a move: five panels over a common axis of samples. */
#include "drawing.h"

#include <inttypes.h>
#include <stdio.h>

enum { HEIGHT = BOTTOM + 48 };

/* Room for every title, and for what it says of the start. */
enum { TITLE_BYTES = 128, FROM_BYTES = 32 };

static void make_title(const profile *drawn, char *title) {
  const int64_t displacement = drawn->move.displacement;
  const char *plural = displacement == 1 || displacement == -1 ? "" : "s";
  char from[FROM_BYTES] = "";
  if (drawn->move.start != 0) {
    snprintf(from, FROM_BYTES, " from %" PRId64, drawn->move.start);
  }
  snprintf(title, TITLE_BYTES, "A move of %" PRId64 " count%s%s in %" PRIu64 " samples, within its four bounds", displacement, plural, from,
           drawn->plan.samples);
}

/* The plan as `bottlerun` prints it, in the paper's durations and with the snap's sign, since not every segment has room for its name. */
static void print_plan(const nitswolan_plan_result *plan, const char *sign) {
  printf("p %" PRIu64 ", q %" PRIu64, plan->a, plan->b - plan->a);
  printf(", r %" PRIu64 ", s %" PRIu64, plan->c - plan->a - plan->b, plan->e - plan->a - plan->b - plan->c);
  printf(" · N %" PRIu64 " · snap %s%" PRIu64 " · shortfall %" PRIu64 " units", plan->samples, sign, plan->snap, plan->shortfall);
}

void draw_figure(const profile *drawn) {
  char title[TITLE_BYTES];
  make_title(drawn, title);
  open_figure(HEIGHT, title);
  printf("<text class=\"title\" x=\"10\" y=\"24\">%s</text>\n", title);
  printf("<text class=\"plan\" x=\"10\" y=\"44\">");
  print_plan(&drawn->plan, drawn->move.displacement < 0 ? "-" : "");
  printf("</text>\n");
  draw_segments(&drawn->plan);
  draw_panels(drawn);
  draw_axis(drawn->plan.samples);
  close_figure();
}
