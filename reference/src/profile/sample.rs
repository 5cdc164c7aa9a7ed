//! One sample of a move, or of every axis of a set.

use super::{rounded, Profile, Rounding};
use crate::planner::{plan_axes, Axes, AxesRefusal, Move, Order, MOST_AXES};

/// What the one-sample entry says.
#[derive(Clone, Copy, Debug, PartialEq, Eq)]
pub enum SampleAnswer {
    /// The number of the refusal, 1 to 7, 9 or 14.
    Refused(u8),
    Sampled(Sample),
}

/// The five values in units, the position in counts, and the units that the counts
/// leave over. In C's layout, as the library gives it.
#[repr(C)]
#[derive(Clone, Copy, Debug, Default, PartialEq, Eq)]
pub struct Sample {
    pub snap: i64,
    pub jerk: i64,
    pub acceleration: i64,
    pub velocity: i64,
    pub position: i64,
    pub count: i64,
    pub remainder: i64,
}

impl Sample {
    /// How many numbers a sample has.
    pub const NUMBERS: usize = 7;
    /// The places of two of them, from 0.
    pub const POSITION: usize = 4;
    pub const REMAINDER: usize = 6;

    /// All of them: the values, the count and the remainder.
    pub fn numbers(&self) -> [i64; Sample::NUMBERS] {
        [
            self.snap,
            self.jerk,
            self.acceleration,
            self.velocity,
            self.position,
            self.count,
            self.remainder,
        ]
    }

    /// Snap, jerk, acceleration, velocity and position.
    pub fn values(&self) -> [i64; 5] {
        let [values @ .., _, _] = self.numbers();
        values
    }

    /// The values at a sample from 0 to N, summed from rest.
    fn of(profile: &Profile, k: u64) -> Sample {
        let asked = profile.states().nth(k as usize);
        let (snap, state) = asked.expect("samples 0 to N are there");
        let Rounding { count, remainder } = rounded(profile.start, state.position);
        Sample {
            snap,
            jerk: state.jerk,
            acceleration: state.acceleration,
            velocity: state.velocity,
            position: state.position,
            count,
            remainder,
        }
    }
}

/// The values at sample k, or the first refusal that applies.
pub fn sample(order: Order, motion: &Move, k: u64) -> SampleAnswer {
    match Profile::of(order, motion) {
        Ok(profile) if k <= profile.samples => SampleAnswer::Sampled(Sample::of(&profile, k)),
        Ok(_) => SampleAnswer::Refused(9),
        Err(number) => SampleAnswer::Refused(number),
    }
}

/// The values of every axis at sample k, 0 after the last; 9 comes after the axes, and
/// k may be beyond the end that an axis has by itself.
pub fn sample_axes(axes: &Axes, k: u64) -> Result<[Sample; MOST_AXES], AxesRefusal> {
    let set = plan_axes(axes)?;
    if k > set.samples {
        let (place, number) = (0, 9);
        return Err(AxesRefusal { place, number });
    }
    let mut samples = [Sample::default(); MOST_AXES];
    let read = axes.moves.iter().zip(&set.plans).take(axes.count as usize);
    for ((motion, plan), sample) in read.zip(&mut samples) {
        let profile = Profile::planned(Order::Fourth, motion, plan);
        // The profile of an axis at rest is its sample 0.
        *sample = Sample::of(&profile, k.min(profile.samples));
    }
    Ok(samples)
}
