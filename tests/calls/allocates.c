/* A function that takes memory from the heap. */
#include <stdlib.h>

void *room(size_t n) { return malloc(n); }
