/* The adversarial inputs of .ci/longest, and a function for each entry that calls it once for each of its inputs. */
#ifndef LONGEST_H
#define LONGEST_H

#include "nitswolan.h"

/* The largest bound that is not refused. */
#define MOST_BOUND (UINT64_C(1) << 50)

#define LENGTH(array) (sizeof(array) / sizeof *(array))

enum { FOURTH_MOVES = 25, THIRD_MOVES = 15, COSTLY_SAMPLES = 15 };

/* Places of fourth_moves: the costliest, the costliest that is refused 7, eight that are planned in different ways, and one with N of 8. */
enum { COSTLIEST = 0, COSTLIEST_REFUSED = 1, DIFFERENT = 4, SHORTEST = 14 };

extern const nitswolan_move fourth_moves[FOURTH_MOVES];
extern const nitswolan_move third_moves[THIRD_MOVES];
extern const uint64_t costly_samples[COSTLY_SAMPLES];

void call_plan_move(void);
void call_sample_move(void);
void call_fill_positions(void);
void call_fill_reference(void);
void call_fill_force(void);
void call_plan_third(void);
void call_sample_third(void);
void call_fill_positions_third(void);
void call_fill_reference_third(void);
void call_plan_axes(void);
void call_sample_axes(void);
void call_read_sheet(void);
void call_report(void);

/* Between these two the bytes are counted that an entry hands to memcpy, memmove and memset. */
void begin_call(void);
void end_call(void);

/* The most bytes of one call. */
uint64_t most_bytes(void);

#define CALL(call) (begin_call(), (void)(call), end_call())

#endif
