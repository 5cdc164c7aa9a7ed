//! A plan: what the intervals come to.

use super::Move;

/// The intervals a, b, c and e, of which a is 0 in third order; the size of the snap
/// (D), or of the jerk; and the shortfall in units. All are 0 for an axis at rest. In
/// C's layout, as the library gives it in fourth order.
#[repr(C)]
#[derive(Clone, Copy, Debug, Default, PartialEq, Eq)]
pub struct Plan {
    pub intervals: [u64; 4],
    pub switched: u64,
    pub shortfall: u64,
}

impl Plan {
    /// The switched value is W over P, rounded down; the shortfall is what that leaves
    /// of W.
    pub fn of(motion: &Move, intervals: [u64; 4]) -> Plan {
        let (w, p) = (motion.w(), product(intervals));
        let switched = w / p;
        // W is 2^60 at most, so that both fit 64 bits.
        Plan {
            intervals,
            switched: switched as u64,
            shortfall: (w - switched * p) as u64,
        }
    }

    /// The number of samples (N).
    pub fn samples(&self) -> u64 {
        self.intervals.iter().sum()
    }

    /// All six numbers.
    pub fn numbers(&self) -> [u64; 6] {
        let [a, b, c, e] = self.intervals;
        [a, b, c, e, self.switched, self.shortfall]
    }
}

/// The product of the intervals (P in the paper). In third order there is no a.
pub fn product([a, b, c, e]: [u64; 4]) -> u128 {
    [a.max(1), b, c, e].map(u128::from).iter().product()
}

/// The durations p, q, r and s of the intervals a, b, c and e.
pub fn durations([a, b, c, e]: [u64; 4]) -> [u64; 4] {
    [a, b - a, c - a - b, e - a - b - c]
}
