/* Writes the profile of a move to standard output, from the library's own samples: as SVG, or as CSV. A refusal is an answer as well. */
#include "profile.h"

#include <inttypes.h>
#include <stdio.h>

enum { DONE = 0, WRITE_FAILED = 1, BAD_ARGUMENTS = 2 };

static void fill_samples(nitswolan_move move, uint64_t last, nitswolan_sample_result *samples) {
  for (uint64_t k = 0; k <= last; k++) {
    samples[k] = nitswolan_sample_move(move, k);
  }
}

static void write_accepted(output_kind kind, const profile *accepted) {
  if (kind == FIGURE) {
    draw_figure(accepted);
  } else {
    list_samples(accepted);
  }
}

static void write_refused(output_kind kind, const profile *refused) {
  fprintf(stderr, "profile: refused %" PRIu64 ": %s\n", refused->plan.refusal, nitswolan_refusal_text(refused->plan.refusal));
  if (kind == FIGURE) {
    draw_refusal(refused);
  } else {
    list_refusal(refused);
  }
}

int main(int argc, char **argv) {
  static nitswolan_sample_result samples[NITSWOLAN_MOST_POSITIONS];
  request asked;
  profile answer;

  if (!read_arguments(argc, argv, &asked)) {
    return BAD_ARGUMENTS;
  }
  answer.move = asked.move;
  answer.plan = nitswolan_plan_move(asked.move);
  answer.samples = samples;
  if (answer.plan.refusal == 0) {
    fill_samples(asked.move, answer.plan.samples, samples);
    write_accepted(asked.kind, &answer);
  } else {
    write_refused(asked.kind, &answer);
  }
  if (fflush(stdout) != 0 || ferror(stdout)) {
    fprintf(stderr, "profile: standard output could not be written\n");
    return WRITE_FAILED;
  }
  return DONE;
}
