/* How much stack each entry takes, with its arguments but without its answer: it is called in a thread on a stack of known bytes.
 * Exits 1 unless that is the header's figure, which is rounded up. */
#define _POSIX_C_SOURCE 200809L
#include "raw_entries.h"
#include "stack.h"

#include <pthread.h>
#include <stdio.h>
#include <stdlib.h>
#include <string.h>

enum { STACK = 1 << 18, UNTOUCHED = 0xA5, ROUNDED_TO = 64 };

/* What the thread is to call, the stack pointer before the call's arguments, and the most that each entry took so far. */
typedef struct {
  int entry;
  size_t most[ENTRIES];
  const raw_axes *axes;
  const char *text;
  const unsigned char *before;
  uint64_t answer[SHEET_SIZE / 8];
  int64_t table[4098];
  double forces[4098];
  uint8_t report[REPORT_SIZE];
} work;

static const raw_move move = {{4092, G, G, G, G}};
static const raw_move longer = {{4094, G, G, G, G}}; /* in third order it takes 4,096 samples, too */
static const raw_machine machine = {{1, 1, 1, 1, 1, 1}};

/* Built without sibling calls and shrink-wrapping (.ci/header), so that only a call's arguments move the stack pointer in it. */
static void *call(void *given) {
  work *todo = given;
  const uint8_t *text = (const uint8_t *)todo->text;
  __asm__ volatile("mov %%rsp, %0" : "=m"(todo->before));
  switch (todo->entry) {
  case PLAN_MOVE: return nitswolan_plan_move(todo->answer, move);
  case SAMPLE_MOVE: return nitswolan_sample_move(todo->answer, move, 4096);
  case FILL_POSITIONS: todo->answer[0] = nitswolan_fill_positions(move, todo->table, 4097).words[0]; break;
  case FILL_REFERENCE: todo->answer[0] = nitswolan_fill_reference(move, todo->table, 4098).words[0]; break;
  case FILL_FORCE: todo->answer[0] = nitswolan_fill_force(move, machine, todo->forces, 4098).words[0]; break;
  case PLAN_THIRD: return nitswolan_plan_third(todo->answer, longer);
  case SAMPLE_THIRD: return nitswolan_sample_third(todo->answer, longer, 4096);
  case FILL_POSITIONS_THIRD: todo->answer[0] = nitswolan_fill_positions_third(longer, todo->table, 4097).words[0]; break;
  case FILL_REFERENCE_THIRD: todo->answer[0] = nitswolan_fill_reference_third(longer, todo->table, 4098).words[0]; break;
  case PLAN_AXES: return nitswolan_plan_axes(todo->answer, *todo->axes);
  case SAMPLE_AXES: return nitswolan_sample_axes(todo->answer, *todo->axes, 4096);
  case READ_SHEET: return nitswolan_read_sheet(todo->answer, text, strlen(todo->text));
  default: todo->answer[0] = nitswolan_report(text, strlen(todo->text), todo->report);
  }
  return NULL;
}

/* The bytes of stack that the call took, or 0 if no thread could be had. */
static size_t stack_of(work *todo, unsigned char *stack) {
  pthread_attr_t attributes;
  pthread_t thread;
  size_t untouched = 0;
  memset(stack, UNTOUCHED, STACK);
  if (pthread_attr_init(&attributes) != 0 || pthread_attr_setstack(&attributes, stack, STACK) != 0 ||
      pthread_create(&thread, &attributes, call, todo) != 0 || pthread_join(thread, NULL) != 0) {
    return 0;
  }
  pthread_attr_destroy(&attributes);
  while (stack[untouched] == UNTOUCHED) {
    untouched++;
  }
  return (size_t)(todo->before - (stack + untouched));
}

/* Calls the entries from `first` up to `end`; one that could not be measured takes the whole stack. Those for a move answer with their
 * refusal first and must not refuse: less stack would be measured than a full table takes. */
static void measure(work *todo, unsigned char *stack, int first, int end) {
  for (todo->entry = first; todo->entry < end; todo->entry++) {
    call(todo); /* so that no name is bound late, on the measured stack */
    size_t taken = stack_of(todo, stack);
    if (taken == 0 || (first == PLAN_MOVE && todo->answer[0] != 0)) {
      taken = STACK;
    }
    if (taken > todo->most[todo->entry]) {
      todo->most[todo->entry] = taken;
    }
  }
}

/* Eight axes, the last as given and the others shorter. */
static raw_axes axes_ending_in(raw_move last) {
  raw_axes axes;
  axes.words[AXES_COUNT / 8] = MOST_AXES;
  for (size_t k = 0; k + 1 < MOST_AXES; k++) {
    set_axis(&axes, k, first_move());
  }
  set_axis(&axes, MOST_AXES - 1, last);
  return axes;
}

/* Planning and sampling a set, over seven axes raised to the last, the last refused, and the last at rest. */
static void measure_sets(work *todo, unsigned char *stack) {
  const raw_axes sets[] = {
    axes_ending_in((raw_move){{4092, G, G, G, G}}),
    axes_ending_in((raw_move){{4093, G, G, G, G}}),
    axes_ending_in((raw_move){{0, G, G, G, G}}),
  };
  for (size_t k = 0; k < sizeof sets / sizeof *sets; k++) {
    todo->axes = &sets[k];
    measure(todo, stack, PLAN_AXES, READ_SHEET);
  }
}

/* 7,431 bytes, the longest sheet: 16 sets and 256 moves, every number with as many digits as it may have. */
static const char *longest_sheet(void) {
  static char text[7432];
  char *end = text;
  end += sprintf(end, "16\n");
  for (int k = 0; k < MOST_SETS; k++) {
    end += sprintf(end, "9999999999999999999 9999999999999999999 9999999999999999999 9999999999999999999\n");
  }
  end += sprintf(end, "256\n");
  for (int k = 0; k < MOST_MOVES; k++) {
    end += sprintf(end, "-9223372036854775807 16\n");
  }
  return text;
}

/* Reading and reporting, over sheets with plans, with refused moves, and malformed ones. */
static void measure_sheets(work *todo, unsigned char *stack) {
  const char *texts[] = {
    "1\n1099511627776 1099511627776 1099511627776 1099511627776\n2\n-4091 1\n-4092 1\n",
    longest_sheet(),
    "1\n1 1 1 1\n1\n-0 1\n",
  };
  for (size_t k = 0; k < sizeof texts / sizeof *texts; k++) {
    todo->text = texts[k];
    measure(todo, stack, READ_SHEET, ENTRIES);
  }
}

int main(void) {
  static work todo;
  void *stack = NULL;
  int failed = 0;
  if (posix_memalign(&stack, 4096, STACK) != 0) {
    return 1;
  }
  measure(&todo, stack, PLAN_MOVE, PLAN_AXES);
  measure_sets(&todo, stack);
  measure_sheets(&todo, stack);
  for (int k = 0; k < ENTRIES; k++) {
    const entry_stack said = declared_stack[k];
    const size_t figure = (todo.most[k] + ROUNDED_TO - 1) / ROUNDED_TO * ROUNDED_TO;
    printf("stack: %s takes %zu bytes, its figure is %zu\n", said.name, todo.most[k], figure);
    if (figure != said.most) {
      printf("stack: %s has %zu in the header\n", said.name, said.most);
      failed = 1;
    }
  }
  free(stack);
  return failed;
}
