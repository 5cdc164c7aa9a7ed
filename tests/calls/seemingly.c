/* No function calls itself or by an address: a loop jumps back, a switch jumps by a table of its own, and one function is called by both others. */
unsigned halvings(unsigned n) {
  unsigned count = 0;
  while (n > 1) {
    n /= 2;
    count++;
  }
  return count;
}

unsigned step(unsigned k, unsigned n) {
  switch (k) {
  case 0: return n * n;
  case 1: return n / 3;
  case 2: return n ^ 5;
  case 3: return n << 2;
  case 4: return halvings(n);
  case 5: return n % 7;
  default: return n;
  }
}

unsigned both(unsigned n) { return halvings(step(n, 1)) + halvings(n); }
