/* A function that is handed out: code has its address. */
unsigned half(unsigned n) { return n / 2; }
unsigned (*step(void))(unsigned) { return half; }
