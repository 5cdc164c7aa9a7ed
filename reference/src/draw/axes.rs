//! Sets of axes: about half are accepted.

use super::moves::{self, BOUND_EDGES};
use super::{starts, Random};
use crate::planner::{plan, plan_axis, Axes, Move, Order, MOST_AXES};

/// Counts that are refused; cut to 8, 32 or 63 bits some would not be.
pub const WRONG_COUNTS: [u64; 6] = [0, 9, (1 << 8) + 3, (1 << 32) + 3, (1 << 63) + 3, u64::MAX];

/// Any set.
pub fn any(random: &mut Random) -> Axes {
    let mut count = random.between(1, MOST_AXES as u64);
    let mut moves = [0; MOST_AXES].map(|_| accepted(random));
    let (read, unread) = moves.split_at_mut(count as usize);
    match random.below(3) {
        0 => unread.fill(Move::new(0, [0; 4])),
        1 => unread.fill_with(|| refused(random)),
        _ => {}
    }
    match random.below(12) {
        0 => read.fill_with(|| at_rest(random)),
        1..=3 => {
            for _ in 0..random.between(1, 2) {
                read[random.below(count) as usize] = refused(random);
            }
        }
        4 | 5 => equal_lengths(read, random),
        _ => {}
    }
    if random.once_in(10) {
        count = random.pick(&WRONG_COUNTS);
    }
    Axes { count, moves }
}

/// An axis that its set accepts.
fn accepted(random: &mut Random) -> Move {
    let motion = moves::planned(random);
    let motion = match random.below(6) {
        0 => Move::new(0, motion.bounds()),
        1 => Move::new(0, [0; 4].map(|_| random.pick(&[1, 1 << 50]))),
        _ => motion,
    };
    starts::in_span(motion, random)
}

/// An axis at rest, often with a bound or its start out of range.
fn at_rest(random: &mut Random) -> Move {
    let mut bounds = accepted(random).bounds();
    let (edge, _) = random.pick(&BOUND_EDGES);
    bounds[random.below(4) as usize] = edge;
    starts::anywhere(Move::new(0, bounds), random)
}

/// An axis that refuses its set.
fn refused(random: &mut Random) -> Move {
    loop {
        let motion = match random.below(3) {
            0 => at_rest(random),
            _ => starts::any(Order::Fourth, random),
        };
        if plan_axis(&motion).is_err() {
            return motion;
        }
    }
}

/// Gives some of the moving axes the length of the first one, and another shape.
fn equal_lengths(axes: &mut [Move], random: &mut Random) {
    let Some(n) = axes
        .iter()
        .find_map(|motion| plan(Order::Fourth, motion).samples())
    else {
        return;
    };
    for axis in axes.iter_mut().filter(|axis| axis.displacement != 0) {
        let shape = [0; 3].map(|_| random.below(9));
        let other = moves::of_samples(Order::Fourth, n, shape);
        if plan(Order::Fourth, &other).samples() == Some(n) {
            let x = other.displacement * axis.displacement.signum();
            *axis = Move::new(x, other.bounds());
        }
    }
}
