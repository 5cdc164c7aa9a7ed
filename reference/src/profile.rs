//! The profile of a move: five values, a count and a remainder at each sample, and
//! the tables filled from it. Every entry takes the move itself and plans inside.

mod counts;
mod position_table;
mod reference_table;
mod sample;
mod segments;
mod state;

pub use counts::{rounded, Rounding};
pub use position_table::position_table;
pub use reference_table::reference_table;
pub use sample::{sample, sample_axes, Sample, SampleAnswer};
pub use segments::{segments, Segment, SEGMENT_COUNT};
pub use state::State;

use crate::planner::{durations, plan, Answer, Move, Order, Plan, UNITS_PER_COUNT};
use std::iter;

/// Reference rows and force rows are 0 to N+1: two more than N.
pub const MORE_ROWS: u64 = 2;

/// What a table entry says.
#[derive(Clone, Copy, Debug, PartialEq, Eq)]
pub enum TableAnswer {
    /// The number of the refusal, 1 to 8 or 14, or 10 for a machine; nothing was
    /// written.
    Refused(u8),
    /// The number of rows written, from place 0 on.
    Written(u64),
}

/// The segments of a planned move, with the signs of its direction, and where it starts.
pub struct Profile {
    order: Order,
    /// In counts.
    pub start: i64,
    pub segments: [Segment; SEGMENT_COUNT],
    /// The number of the last sample (N in the paper).
    pub samples: u64,
}

impl Profile {
    /// The profile of a move, or the planner's refusal, 1 to 7 or 14.
    pub fn of(order: Order, motion: &Move) -> Result<Profile, u8> {
        match plan(order, motion) {
            Answer::Refused(number) => Err(number),
            Answer::Planned(plan) => Ok(Profile::planned(order, motion, &plan)),
        }
    }

    /// The profile of a move by its plan, or by the plan it has in a set.
    pub fn planned(order: Order, motion: &Move, plan: &Plan) -> Profile {
        // D is at most S, the jerk at most J, and both at most 2^50. For a negative X
        // every value changes sign; all of them are sums of what is switched.
        let switched = plan.switched as i64 * motion.displacement.signum();
        Profile {
            order,
            start: motion.start,
            segments: segments(order, durations(plan.intervals), switched),
            samples: plan.samples(),
        }
    }

    /// The profile of a move for a table of N and `more` rows, if they fit this
    /// many places, or the refusal, 1 to 8 or 14.
    pub(crate) fn fitting(
        order: Order,
        motion: &Move,
        places: usize,
        more: u64,
    ) -> Result<Profile, u8> {
        let profile = Profile::of(order, motion)?;
        if (places as u64) < profile.samples + more {
            return Err(8);
        }
        Ok(profile)
    }

    /// The position at sample 0, and before it.
    pub fn first_position(&self) -> i64 {
        UNITS_PER_COUNT as i64 * self.start
    }

    /// The snap and the state at each sample from 0 to N.
    pub fn states(&self) -> impl Iterator<Item = (i64, State)> + '_ {
        let in_segment = |segment: &Segment| iter::repeat_n(segment.switched, segment.samples);
        // The segments end at sample N-1; at N the snap, or the jerk, is 0.
        let values = self.segments.iter().flat_map(in_segment).chain([0]);
        let at_rest = State {
            position: self.first_position(),
            ..State::default()
        };
        values.scan(at_rest, |state, switched| {
            let [snap, jerk] = self.order.highest(switched, state.jerk);
            let here = State { jerk, ..*state };
            *state = here.next(snap);
            Some((snap, here))
        })
    }
}
