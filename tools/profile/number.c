/* Numbers as text. */
#include "drawing.h"

#include <inttypes.h>
#include <stdio.h>

enum { SHOWN_DIGITS = 6, MOST_DECIMALS = 15 };

void print_pixels(int64_t hundredths) {
  const int64_t rest = hundredths % PIXEL;
  printf("%" PRId64, hundredths / PIXEL);
  if (rest % 10 != 0) {
    printf(".%02" PRId64, rest);
  } else if (rest != 0) {
    printf(".%" PRId64, rest / 10);
  }
}

/* How many decimals show six digits, of which none are zeros at the front; but at most MOST_DECIMALS. */
static int decimals_of(double counts) {
  int decimals = SHOWN_DIGITS - 1;
  for (double left = counts; left >= 10 && decimals > 0; left /= 10) {
    decimals--;
  }
  for (double left = counts; left < 1 && decimals < MOST_DECIMALS; left *= 10) {
    decimals++;
  }
  return decimals;
}

/* Up to 2^53 units, as all of an accepted move are, the double is exact. Above that it is the nearest, and the six digits are as good. */
void print_decimal(uint64_t units) {
  const double counts = (double)units / (double)NITSWOLAN_UNITS_PER_COUNT;
  const int decimals = decimals_of(counts);
  char text[MOST_DECIMALS + 32];
  int length = snprintf(text, sizeof text, "%.*f", decimals, counts);
  while (decimals > 0 && text[length - 1] == '0') {
    length--;
  }
  length -= text[length - 1] == '.';
  printf("%.*s", length, text);
}
