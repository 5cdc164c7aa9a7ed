/* The figure of a move that is refused: why, and its numbers. */
#include "drawing.h"

#include <inttypes.h>
#include <stdio.h>

/* In pixels: the figure's height, the baseline of its first line, and from each line to the next. */
enum { HEIGHT = 190, FIRST = 28, LINE = 24 };

/* Room for the words of every refusal. */
enum { WORDS_BYTES = 160 };

static void draw_counts(int place, const char *name, int64_t counts) {
  const char *plural = counts == 1 || counts == -1 ? "" : "s";
  printf("<text x=\"10\" y=\"%d\">%s = %" PRId64 " count%s</text>\n", FIRST + LINE * place, name, counts, plural);
}

static void draw_bound(int place, const char *name, uint64_t units, const char *unit) {
  printf("<text x=\"10\" y=\"%d\">%s = ", FIRST + LINE * place, name);
  print_decimal(units);
  printf(" %s (%" PRIu64 " unit%s)</text>\n", unit, units, units == 1 ? "" : "s");
}

void draw_refusal(const profile *refused) {
  const nitswolan_move *move = &refused->move;
  char words[WORDS_BYTES];
  snprintf(words, WORDS_BYTES, "refused %" PRIu64 ": %s", refused->plan.refusal, nitswolan_refusal_text(refused->plan.refusal));
  open_figure(HEIGHT, words);
  printf("<text class=\"bound-label\" x=\"10\" y=\"%d\">%s</text>\n", FIRST, words);
  draw_counts(1, "X", move->displacement);
  draw_bound(2, "V", move->velocity, "counts/sample");
  draw_bound(3, "A", move->acceleration, "counts/sample²");
  draw_bound(4, "J", move->jerk, "counts/sample³");
  draw_bound(5, "S", move->snap, "counts/sample⁴");
  draw_counts(6, "START", move->start);
  close_figure();
}
