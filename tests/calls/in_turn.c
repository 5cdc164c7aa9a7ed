/* Three functions that call each other in turn, one of them by a jump. */
int is_even(unsigned n);
int before(unsigned n);
int is_odd(unsigned n);

int is_even(unsigned n) { return n == 0 || before(n); }
int before(unsigned n) { return is_odd(n - 1); }
int is_odd(unsigned n) { return n != 0 && is_even(n - 1); }
