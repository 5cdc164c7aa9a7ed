/* memcpy, memmove and memset of the program's own. How many instructions those of a C library take depends on it and on the processor, so
 * they are not counted; the bytes are. The pointers are volatile, or the compiler would make calls of these functions of their loops. */
#include "longest.h"

static uint64_t bytes;
static uint64_t most;

void begin_call(void) {
  bytes = 0;
}

void end_call(void) {
  most = bytes > most ? bytes : most;
}

uint64_t most_bytes(void) {
  return most;
}

void *memcpy(void *to, const void *from, size_t count) {
  volatile unsigned char *out = to;
  const volatile unsigned char *in = from;
  for (size_t k = 0; k < count; k++) {
    out[k] = in[k];
  }
  bytes += count;
  return to;
}

void *memmove(void *to, const void *from, size_t count) {
  volatile unsigned char *out = to;
  const volatile unsigned char *in = from;
  const int backwards = (uintptr_t)to > (uintptr_t)from;
  for (size_t k = 0; k < count; k++) {
    const size_t at = backwards ? count - 1 - k : k;
    out[at] = in[at];
  }
  bytes += count;
  return to;
}

void *memset(void *to, int value, size_t count) {
  volatile unsigned char *out = to;
  for (size_t k = 0; k < count; k++) {
    out[k] = (unsigned char)value;
  }
  bytes += count;
  return to;
}
