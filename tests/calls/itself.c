/* A function that calls itself, where it goes on with what that answers, and where it ends with it. */
static unsigned steps(unsigned n) { return n < 2 ? n : steps(n / 2) + steps(n / 3); }

unsigned most_steps(unsigned n) { return steps(n) + 1; }
