//! Starts of moves (document 02, request 7): in the span, at its edges, and outside.

use super::{moves, Random};
use crate::planner::{Move, Order, LARGEST_DISPLACEMENT};

/// Starts and ends at which a move is allowed or not, with the refusal; cut to 32 bits
/// the last would be allowed.
pub const SPAN_EDGES: [(i64, i128); 7] = [
    (1_048_576, 0),
    (-1_048_576, 0),
    (1_048_577, 14),
    (-1_048_577, 14),
    (i64::MIN, 14),
    (i64::MAX, 14),
    (1 << 32, 14),
];

/// Any move for plans of an order, from any start.
pub fn any(order: Order, random: &mut Random) -> Move {
    let motion = moves::any(order, random);
    anywhere(motion, random)
}

/// The move from a start in the span, or with its start or its end at an edge of it.
pub fn anywhere(motion: Move, random: &mut Random) -> Move {
    let (edge, _) = random.pick(&SPAN_EDGES);
    match random.below(32) {
        0 => motion.starting_at(edge),
        1 => motion.starting_at(edge.wrapping_sub(motion.displacement)),
        _ => in_span(motion, random),
    }
}

/// The move from a start, 0 or not, with which its end is in the span too.
pub fn in_span(motion: Move, random: &mut Random) -> Move {
    let largest = LARGEST_DISPLACEMENT as i64;
    let x = motion.displacement.clamp(-largest, largest);
    let start = random.log_uniform(LARGEST_DISPLACEMENT) as i64 * random.pick(&[0, 1, -1]);
    motion.starting_at(start.clamp(-largest - x.min(0), largest - x.max(0)))
}
