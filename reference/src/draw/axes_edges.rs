//! Sets in which the words of document 02's requests 1 and 7 decide, each with what
//! refuses it: the place and the number, both 0 if nothing does. Every run sends them first.

use super::paper;
use crate::planner::{Axes, Move, LARGEST_BOUND, MOST_AXES};

/// A set of these axes; every place after them holds one other move.
fn set(axes: &[Move], after: Move) -> Axes {
    let (count, mut moves) = (axes.len() as u64, [after; MOST_AXES]);
    moves[..axes.len()].copy_from_slice(axes);
    Axes { count, moves }
}

pub fn sets() -> Vec<(Axes, (u64, u8))> {
    // N = 8, 12, 4,096 and 4,097.
    let [short, long, _, _, _, _, longest, too_long, ..] = paper::moves();
    let beyond = Move::new(i64::MIN, [0; 4]);
    let rest = |bounds| Move::new(0, bounds);
    let at = |start, motion: Move| motion.starting_at(start);
    let without_s = at(-2 << 20, rest([1, 1, 1, 0]));
    let mut eight = [short; MOST_AXES];
    eight[7] = beyond;
    let mut list = vec![
        (set(&[rest([1; 4]); 3], long), (0, 1)),
        (set(&[rest([0; 4]); 3], long), (0, 1)),
        (set(&[short, too_long, long], long), (2, 7)),
        (set(&[short, too_long, beyond], long), (2, 7)),
        (set(&eight, long), (8, 2)),
        (set(&[short, long], beyond), (0, 0)),
        (set(&[long, short], longest), (0, 0)),
        (set(&[short, at(1 << 20, too_long)], long), (2, 14)),
        (set(&[too_long, at(1 << 20, short)], long), (1, 7)),
        (set(&[short, without_s], long), (2, 6)),
        (set(&[at(i64::MIN, rest([1; 4])); 3], long), (0, 1)),
        (set(&[short, long], at(i64::MAX, short)), (0, 0)),
    ];
    for count in [0, 9, u64::MAX] {
        let moves = [short, rest([0; 4])].map(|motion| [motion; MOST_AXES]);
        list.extend(moves.map(|moves| (Axes { count, moves }, (0, 13))));
    }
    for wrong in [0, LARGEST_BOUND + 1] {
        let bounds = [[wrong; 4], [1, 1, wrong, 0], [1, 1, 1, wrong]];
        let sets = bounds.map(|bounds| set(&[short, rest(bounds)], long));
        list.extend(sets.into_iter().zip([(2, 3), (2, 5), (2, 6)]));
    }
    list
}

/// Sample 9 of all these, which is after the end of the short axis by itself; the
/// common end and beyond; and a sample after every end in a set that is refused.
pub fn samples() -> Vec<(Axes, u64, (u64, u8))> {
    let [short, long, _, _, _, _, longest, too_long, ..] = paper::moves();
    let two = set(&[short, long], longest);
    let refused = set(&[short, too_long], longest);
    let within = sets().into_iter().map(|(axes, refusal)| (axes, 9, refusal));
    let ends = [(12, 0), (13, 9), (u64::MAX, 9)].map(|(k, number)| (two, k, (0, number)));
    let after = [(refused, 4_098, (2, 7))];
    within.chain(ends).chain(after).collect()
}
