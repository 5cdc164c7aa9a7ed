/* The samples of a move as CSV, in units as the library gives them. */
#include "profile.h"

#include <inttypes.h>
#include <stdio.h>

static void print_row(uint64_t k, const nitswolan_sample_result *now) {
  printf("%" PRIu64 ",%" PRId64 ",%" PRId64 ",%" PRId64 ",%" PRId64, k, now->snap, now->jerk, now->acceleration, now->velocity);
  printf(",%" PRId64 ",%" PRId64 ",%" PRId64 "\n", now->position, now->count, now->remainder);
}

void list_samples(const profile *listed) {
  printf("sample,snap,jerk,acceleration,velocity,position,count,remainder\n");
  for (uint64_t k = 0; k <= listed->plan.samples; k++) {
    print_row(k, &listed->samples[k]);
  }
}

/* The words are in quotes, since they have commas; they have no quotes themselves. */
void list_refusal(const profile *refused) {
  printf("refusal,words\n%" PRIu64 ",\"%s\"\n", refused->plan.refusal, nitswolan_refusal_text(refused->plan.refusal));
}
