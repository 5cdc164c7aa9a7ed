/* A table of functions: the step jumps to one of them. */
unsigned half(unsigned n) { return n / 2; }
unsigned third(unsigned n) { return n / 3; }

static unsigned (*const steps[])(unsigned) = {half, third};

unsigned step(unsigned k, unsigned n) { return steps[k](n); }
