/* The entries for a sheet. */
#include "longest.h"

#include <inttypes.h>
#include <stdio.h>

#define NINES "9999999999999999999"
#define MOST_SET NINES " " NINES " " NINES " " NINES "\n"

enum { LONGEST_READ = 65535, CUTS = 10 };

static char text[LONGEST_READ + 1];

/* The sections of 16 sets and of 256 moves. Of the sets only the last is used, so that all others may have the longest numbers. */
static char *put_sets(const char *last) {
  char *end = text + sprintf(text, "16\n");
  for (int k = 1; k < NITSWOLAN_MOST_SETS; k++) {
    end += sprintf(end, MOST_SET);
  }
  return end + sprintf(end, "%s", last);
}

static size_t put_moves(char *from, int64_t displacement) {
  char *end = from + sprintf(from, "256\n");
  for (int k = 0; k < NITSWOLAN_MOST_MOVES; k++) {
    end += sprintf(end, "%" PRId64 " 16\n", displacement);
  }
  return (size_t)(end - text);
}

/* The longest sheet, 7,431 bytes. The text goes on after it, beyond what is read. */
static size_t put_longest(void) {
  const size_t length = put_moves(put_sets(MOST_SET), -INT64_MAX);
  for (size_t k = length; k < sizeof text; k++) {
    text[k] = '9';
  }
  return length;
}

/* A sheet whose moves are all the given one, from 0. */
static size_t put_sheet(nitswolan_move move) {
  char last[4 * 21 + 1];
  sprintf(last, "%" PRIu64 " %" PRIu64 " %" PRIu64 " %" PRIu64 "\n", move.velocity, move.acceleration, move.jerk, move.snap);
  return put_moves(put_sets(last), move.displacement);
}

/* How much of the text is sent: the longest sheet; a byte more, which takes most to read; as much as is read at all; more; and less. */
static size_t cut(size_t sheet, size_t k) {
  const size_t lengths[CUTS] = {sheet, sheet + 1, LONGEST_READ, LONGEST_READ + 1, sheet - 1, sheet - 2, sheet - 3, sheet / 2, 1, 0};
  return lengths[k];
}

void call_read_sheet(void) {
  const size_t sheet = put_longest();
  for (size_t k = 0; k < CUTS; k++) {
    CALL(nitswolan_read_sheet((const uint8_t *)text, cut(sheet, k)));
  }
}

static nitswolan_report_buffer report;

/* Of the longest sheet every move is refused 2. */
static void report_longest(void) {
  const size_t sheet = put_longest();
  for (size_t k = 0; k < CUTS; k++) {
    CALL(nitswolan_report((const uint8_t *)text, cut(sheet, k), &report));
  }
}

/* A displacement of INT64_MIN cannot stand in a sheet: such a sheet is malformed. */
void call_report(void) {
  report_longest();
  for (size_t k = 0; k < FOURTH_MOVES; k++) {
    const size_t length = put_sheet(fourth_moves[k]);
    CALL(nitswolan_report((const uint8_t *)text, length, &report));
  }
}
