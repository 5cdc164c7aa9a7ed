/* Moves and samples. Those with odd numbers were found by a search (docs/BENCHMARKS.md), each the costliest that it found of its kind. */
#include "longest.h"

#define G (UINT64_C(1) << 40)
#define SQUARE (UINT64_C(4096) * 4096)

const nitswolan_move fourth_moves[FOURTH_MOVES] = {
  /* Costliest. The distance decides that a is 512, and by it b, c and e. J and V are so large and A is such that every search before it
   * finds 4,096 or 4,097: nine searches take 11 or 12 steps, and only the tenth none. Backwards a count is rounded in more instructions. */
  {-1000, MOST_BOUND, 2000 * SQUARE, MOST_BOUND, 2000, 0},
  /* The same with a of 1,024, so that N is above 4,096. */
  {30320, UINT64_C(74783961801432), UINT64_C(36927612312), UINT64_C(32751051191308), 3798, 0},
  /* The same of a report: its plan takes 3 instructions less, but its numbers have more digits. */
  {-101770, MOST_BOUND, MOST_BOUND, MOST_BOUND, 268296, 0},
  {1000, MOST_BOUND, 2000 * SQUARE, MOST_BOUND, 2000, -500},
  {1, UINT64_C(277172339271), UINT64_C(4117750062013), UINT64_C(87146370793592), 2, 0},
  /* By which of the durations q, r and s are not 0: q, r, q and r, s, q and s, r and s, all three. */
  {-235, UINT64_C(2890740849521), UINT64_C(43811439156366), 239756, 907, 0},
  {-22048, UINT64_C(905550146844804), UINT64_C(25859277304), UINT64_C(293838298909892), 301261, 0},
  {-7568, UINT64_C(768821731681399), UINT64_C(5383838541), 10144180, 37059, 0},
  {-6407, UINT64_C(2293540865177), UINT64_C(1146254198578), UINT64_C(71956559310), 68527, 0},
  {-546259, UINT64_C(268152570495301), UINT64_C(385310210375009), 572278753, 1936792, 0},
  {-52847, UINT64_C(26126575026860), UINT64_C(23326966401), UINT64_C(21030316804), 289809, 0},
  {-36860, UINT64_C(18907429513269), UINT64_C(17009982553), 32806045, 127197, 0},
  /* All fifteen segments and N of 4,096, with the durations 3, 3, 3, 4054 and 4, 4, 4, 4040: no rows of a table are costlier. */
  {-1048576, UINT64_C(282925522602908), UINT64_C(23577126883576), UINT64_C(3929521147263), UINT64_C(1309840382421), 0},
  {-1048576, UINT64_C(283412365930887), UINT64_C(17713272870681), UINT64_C(2214159108836), UINT64_C(553539777209), 0},
  /* Edges: N of 8, of 4,096 and above; every interval above 4,096; the first search long and the others cut by it. */
  {1, MOST_BOUND, MOST_BOUND, MOST_BOUND, MOST_BOUND, 1048575},
  {-4092, G, G, G, G, 0},
  {4093, G, G, G, G, 0},
  {1048576, 1, 1, 1, 1, 0},
  {1048576, MOST_BOUND, MOST_BOUND, MOST_BOUND, 1, -1048576},
  {1048576, MOST_BOUND, MOST_BOUND, 4096, 1, 0},
  /* Refused before any search. */
  {0, G, G, G, G, 0},
  {INT64_MIN, G, G, G, G, 0},
  {1, G, G, G, MOST_BOUND + 1, 0},
  {1, G, G, G, G, INT64_MIN},
  {1, G, G, G, G, 1048576},
};

const nitswolan_move third_moves[THIRD_MOVES] = {
  /* Costliest. The distance decides that b is 1,024, and by it c and e: five searches take 11 or 12 steps, and the sixth none. */
  {-1, 512 * SQUARE, MOST_BOUND, 512, 0, 0},
  /* The same with b of 2,049, so that N is above 4,096. */
  {1174, UINT64_C(498042010680236), UINT64_C(307898182766699), 75108, 0, 0},
  {73895, UINT64_C(635607981215330), UINT64_C(6948862954167), 37892690, 0, 0},
  /* With the durations q, r, and both. */
  {-13685, UINT64_C(739358663319076), UINT64_C(7599062394), 12605988, 0, 0},
  {-499394, UINT64_C(178767631910306), UINT64_C(5531297588321), 683721999, 0, 0},
  {-1461, UINT64_C(627253458762), 613559124, 1198583, 0, 0},
  /* The costliest rows of a table: the durations 1022, 2, 4 and 1022, 3, 2. */
  {-1048576, UINT64_C(562400733954560), UINT64_C(549219466753), 537396739, 0, 0},
  {-1048576, UINT64_C(562675209666592), UINT64_C(548951424065), 537134466, 0, 0},
  /* Edges, and refused before any search. */
  {1, MOST_BOUND, MOST_BOUND, MOST_BOUND, 0, 1048575},
  {-4094, G, G, G, 0, 0},
  {1048576, 1, 1, 1, 0, 0},
  {1048576, MOST_BOUND, MOST_BOUND, 1, 0, -1048576},
  {INT64_MIN, G, G, G, 0, 0},
  {1, G, G, G, 0, INT64_MIN},
  {1, G, G, G, 0, 1048576},
};

/* Both ends, the ends of segments of the costliest moves, some between them, and past the end. */
const uint64_t costly_samples[COSTLY_SAMPLES] = {0, 1, 511, 512, 1023, 1024, 2047, 2048, 2049, 3000, 3584, 4095, 4096, 4097, UINT64_MAX};
