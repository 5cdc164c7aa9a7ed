/* The profile of a move, as a figure or as a list of samples. */
#ifndef PROFILE_H
#define PROFILE_H

#include "nitswolan.h"

/* The move, its plan, and the library's samples 0 to N. There are no samples where the plan is refused. */
typedef struct {
  nitswolan_move move;
  nitswolan_plan_result plan;
  const nitswolan_sample_result *samples;
} profile;

/* What is asked for. */
typedef enum { FIGURE, SAMPLES } output_kind;

typedef struct {
  output_kind kind;
  nitswolan_move move;
} request;

/* Reads the arguments of the program; 0 if one is wrong, which a line on standard error has then said. */
int read_arguments(int count, char **texts, request *asked);

/* Each writes to standard output, for a plan that is accepted and for one that is refused. */
void draw_figure(const profile *drawn);
void draw_refusal(const profile *refused);
void list_samples(const profile *listed);
void list_refusal(const profile *refused);

#endif
