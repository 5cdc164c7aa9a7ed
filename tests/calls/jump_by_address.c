/* A function that is handed in, and jumped to as the last step. */
unsigned applied(unsigned (*function)(unsigned), unsigned n) { return function(n); }
