//! The planner: a move is either planned or refused with a number, in fourth or in
//! third order, and so is a set of axes.

mod axes;
mod deciders;
mod intervals;
mod moves;
mod orders;
mod plans;

pub use axes::{plan_axes, plan_axis, Axes, AxesPlan, AxesRefusal, MOST_AXES};
pub use deciders::{deciding_lower_limits, deciding_searches};
pub use intervals::{Intervals, Searches};
pub use moves::{Move, LARGEST_BOUND, LARGEST_DISPLACEMENT, UNITS_PER_COUNT};
pub use orders::Order;
pub use plans::{durations, product, Plan};

/// The most samples a move may take (N in the paper, row 7).
pub const MOST_SAMPLES: u128 = 4096;

/// What the planner says about a move.
#[derive(Clone, Copy, Debug, PartialEq, Eq)]
pub enum Answer {
    /// The number of the refusal, 1 to 7 or 14.
    Refused(u8),
    Planned(Plan),
}

impl Answer {
    /// The number of samples (N), for a planned move.
    pub fn samples(&self) -> Option<u64> {
        match self {
            Answer::Refused(_) => None,
            Answer::Planned(plan) => Some(plan.samples()),
        }
    }
}

/// Plans a move, or refuses it with the first that applies of 1 to 6, 14 and 7.
pub fn plan(order: Order, motion: &Move) -> Answer {
    match Intervals::of(order, motion) {
        Err(number) => Answer::Refused(number),
        Ok(found) if found.samples() > MOST_SAMPLES => Answer::Refused(7),
        Ok(found) => Answer::Planned(Plan::of(motion, found.all())),
    }
}
