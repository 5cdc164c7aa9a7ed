/* Calls the entry that the argument names once for each of its adversarial inputs, and no other entry. Under callgrind .ci/longest counts
 * the instructions of every call. Prints the most bytes that a call copied and cleared; with no argument, the names of the entries. */
#include "longest.h"

#include <inttypes.h>
#include <stdio.h>
#include <string.h>

typedef struct {
  const char *name;
  void (*call)(void);
} entry;

#define ENTRY(name) {"nitswolan_" #name, call_##name}

static const entry entries[] = {
  ENTRY(plan_move),
  ENTRY(sample_move),
  ENTRY(fill_positions),
  ENTRY(fill_reference),
  ENTRY(fill_force),
  ENTRY(plan_axes),
  ENTRY(sample_axes),
  ENTRY(plan_third),
  ENTRY(sample_third),
  ENTRY(fill_positions_third),
  ENTRY(fill_reference_third),
  ENTRY(read_sheet),
  ENTRY(report),
};

static int list_names(void) {
  for (size_t k = 0; k < LENGTH(entries); k++) {
    puts(entries[k].name);
  }
  return 0;
}

static int call_named(const char *name) {
  for (size_t k = 0; k < LENGTH(entries); k++) {
    if (strcmp(entries[k].name, name) == 0) {
      entries[k].call();
      printf("%" PRIu64 "\n", most_bytes());
      return 0;
    }
  }
  fprintf(stderr, "longest: no entry %s\n", name);
  return 1;
}

int main(int count, char **arguments) {
  return count == 2 ? call_named(arguments[1]) : list_names();
}
