//! Sets of one to eight axes that arrive together (document 02, request 1).

use super::{plan, Answer, Move, Order, Plan};

pub const MOST_AXES: usize = 8;

/// Eight moves, of which the first `count` are read. In C's layout, so that it can
/// be sent to the library as it is.
#[repr(C)]
#[derive(Clone, Copy, Debug)]
pub struct Axes {
    pub count: u64,
    pub moves: [Move; MOST_AXES],
}

/// The common duration (N), and the plan of each place.
#[derive(Clone, Copy, Debug, Default, PartialEq, Eq)]
pub struct AxesPlan {
    pub samples: u64,
    pub plans: [Plan; MOST_AXES],
}

/// The place of the axis that refuses the set, counted from 1, or 0 for a refusal
/// of the set itself; and the number.
#[derive(Clone, Copy, Debug, Default, PartialEq, Eq)]
pub struct AxesRefusal {
    pub place: u64,
    pub number: u8,
}

impl Axes {
    /// The moves that are read, unless their count is not 1 to 8.
    pub fn counted(&self) -> Option<&[Move]> {
        match self.count {
            1..=8 => Some(&self.moves[..self.count as usize]),
            _ => None,
        }
    }
}

/// Plans every axis, then raises each shorter one to the longest.
pub fn plan_axes(axes: &Axes) -> Result<AxesPlan, AxesRefusal> {
    let refusal = |place, number| AxesRefusal { place, number };
    let moves = axes.counted().ok_or(refusal(0, 13))?;
    if moves.iter().all(|motion| motion.displacement == 0) {
        return Err(refusal(0, 1));
    }
    let mut set = AxesPlan::default();
    for (place, motion) in moves.iter().enumerate() {
        let alone = plan_axis(motion).map_err(|number| refusal(place as u64 + 1, number));
        set.plans[place] = alone?;
        set.samples = set.samples.max(set.plans[place].samples());
    }
    for (motion, plan) in moves.iter().zip(&mut set.plans) {
        if motion.displacement != 0 {
            let [a, b, c, e] = plan.intervals;
            let more = set.samples - plan.samples();
            *plan = Plan::of(motion, [a, b, c, e + more]);
        }
    }
    Ok(set)
}

/// The plan of an axis by itself, or its own refusal, 2 to 7 or 14; one at rest is
/// asked for its bounds and its start alone.
pub fn plan_axis(motion: &Move) -> Result<Plan, u8> {
    if motion.displacement == 0 {
        let refusal = motion.bound_refusal(Order::Fourth);
        return refusal.map_or(Ok(Plan::default()), Err);
    }
    match plan(Order::Fourth, motion) {
        Answer::Refused(number) => Err(number),
        Answer::Planned(plan) => Ok(plan),
    }
}
