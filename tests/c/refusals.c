/* Prints the refusals in plain words, as the rows of the README's table; exits 1 where a number has no words, or others have some. */
#include "nitswolan.h"

#include <inttypes.h>
#include <stdio.h>
#include <string.h>

int main(void) {
  const char *none = nitswolan_refusal_text(UINT64_MAX);
  uint64_t refusal = 1;
  for (; strcmp(nitswolan_refusal_text(refusal), none) != 0; refusal++) {
    printf("| %" PRIu64 " | %s |\n", refusal, nitswolan_refusal_text(refusal));
  }
  return refusal != NITSWOLAN_START_OR_END_RANGE + 1 || strcmp(nitswolan_refusal_text(0), "not refused") != 0;
}
