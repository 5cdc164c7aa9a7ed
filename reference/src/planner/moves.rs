//! A move as it is sent, and the refusals that need no planning.

use super::Order;

/// Units in one count (the paper's grains, G).
pub const UNITS_PER_COUNT: u128 = 1 << 40;

/// The largest size of a displacement in counts (row 2), and of a start and an end
/// (row 14).
pub const LARGEST_DISPLACEMENT: u64 = 1_048_576;

/// The largest value of each of the four bounds (rows 3 to 6).
pub const LARGEST_BOUND: u64 = 1 << 50;

/// The displacement X in counts, the bounds V, A, J and S in units of 1/G count, and
/// the start in counts. In C's layout, so that it can be sent to the library as it is.
#[repr(C)]
#[derive(Clone, Copy, Debug, PartialEq, Eq)]
pub struct Move {
    pub displacement: i64,
    pub velocity: u64,
    pub acceleration: u64,
    pub jerk: u64,
    pub snap: u64,
    pub start: i64,
}

impl Move {
    /// The move of X and V, A, J, S from start 0.
    pub fn new(displacement: i64, [velocity, acceleration, jerk, snap]: [u64; 4]) -> Move {
        Move {
            displacement,
            velocity,
            acceleration,
            jerk,
            snap,
            start: 0,
        }
    }

    /// The same from another start (document 02, request 7).
    pub fn starting_at(self, start: i64) -> Move {
        Move { start, ..self }
    }

    /// The start count and the end count, of any numbers sent.
    pub fn ends(&self) -> [i128; 2] {
        let start = i128::from(self.start);
        [start, start + i128::from(self.displacement)]
    }

    /// V, A, J and S.
    pub fn bounds(&self) -> [u64; 4] {
        [self.velocity, self.acceleration, self.jerk, self.snap]
    }

    /// The way in units (W in the paper): G times the size of X.
    pub fn w(&self) -> u128 {
        UNITS_PER_COUNT * u128::from(self.displacement.unsigned_abs())
    }

    /// The first of the refusals 1 to 6 and then 14 that applies.
    pub fn range_refusal(&self, order: Order) -> Option<u8> {
        match self.displacement.unsigned_abs() {
            0 => Some(1),
            size if size > LARGEST_DISPLACEMENT => Some(2),
            _ => self.bound_refusal(order),
        }
    }

    /// The first of the refusals 3 to 6 and then 14 that applies, which an axis at rest
    /// is asked too; S is not read in third order.
    pub fn bound_refusal(&self, order: Order) -> Option<u8> {
        let outside = |bound: &u64| !(1..=LARGEST_BOUND).contains(bound);
        let read = &self.bounds()[..order as usize];
        let first = read.iter().position(outside);
        let far = |count: &i128| count.unsigned_abs() > LARGEST_DISPLACEMENT.into();
        let last = self.ends().iter().any(far).then_some(14);
        first.map(|place| 3 + place as u8).or(last)
    }
}
