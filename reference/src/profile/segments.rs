//! The segments in which what is switched is constant: fifteen of the snap, or in
//! third order seven of the jerk.

use crate::planner::Order;

/// How many segments a profile has. In third order p is 0, and those of p are empty.
pub const SEGMENT_COUNT: usize = 15;

/// Which of the durations p, q, r and s each segment has: p q p r p q p s p q p r p q p.
const DURATION: [usize; SEGMENT_COUNT] = [0, 1, 0, 2, 0, 1, 0, 3, 0, 1, 0, 2, 0, 1, 0];

/// The sign of the snap in each segment: + 0 − 0 − 0 + 0 − 0 + 0 + 0 −.
const SNAP: [i64; SEGMENT_COUNT] = [1, 0, -1, 0, -1, 0, 1, 0, -1, 0, 1, 0, 1, 0, -1];

/// The sign of the jerk in third order: + 0 − 0 − 0 + in the segments that are left.
const JERK: [i64; SEGMENT_COUNT] = [0, 1, 0, 0, 0, -1, 0, 0, 0, -1, 0, 0, 0, 1, 0];

/// Samples, possibly none, with the same snap or jerk.
#[derive(Clone, Copy, Debug, PartialEq, Eq)]
pub struct Segment {
    pub samples: usize,
    pub switched: i64,
}

/// The segments for the durations p, q, r and s, with the value where it is first
/// switched on.
pub fn segments(order: Order, durations: [u64; 4], value: i64) -> [Segment; SEGMENT_COUNT] {
    let sign = match order {
        Order::Third => JERK,
        Order::Fourth => SNAP,
    };
    std::array::from_fn(|k| Segment {
        samples: durations[DURATION[k]] as usize,
        switched: sign[k] * value,
    })
}
