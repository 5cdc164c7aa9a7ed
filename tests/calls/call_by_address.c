/* A function that is handed in and called. */
unsigned applied(unsigned (*function)(unsigned), unsigned n) { return function(n) + 1; }
