//! Rounding a position in units to counts (document 02, requests 2 and 7).

use crate::planner::UNITS_PER_COUNT;

/// The nearest count, and what it leaves over: the position minus G times the count.
#[derive(Clone, Copy, Debug, PartialEq, Eq)]
pub struct Rounding {
    pub count: i64,
    pub remainder: i64,
}

/// Any position to its nearest count: the distance from the start, a count, is
/// rounded, halves away from the start.
pub fn rounded(start: i64, position: i64) -> Rounding {
    let (start, position) = (i128::from(start), i128::from(position));
    let distance = position - UNITS_PER_COUNT as i128 * start;
    // The size is rounded, so both directions have the same rule; in 128 bits
    // nothing overflows.
    let size = (distance.unsigned_abs() + UNITS_PER_COUNT / 2) / UNITS_PER_COUNT;
    let count = start + size as i128 * distance.signum();
    let remainder = position - UNITS_PER_COUNT as i128 * count;
    Rounding {
        count: count as i64,
        remainder: remainder as i64,
    }
}
