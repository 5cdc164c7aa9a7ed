//! Samples at a half count and a unit beside it, of a move and of raised axes.

use super::samples::nearest_half;
use super::{moves, starts, Random};
use crate::planner::{product, Axes, Move, Order, Plan, MOST_AXES};
use crate::profile::Profile;

/// X and P of moves that have such a position, with any intervals from 2 up:
/// - a unit short of a half in the middle, since the shortfall is 2 and X is odd; a
///   sample is there, since N is odd, and in third order even;
/// - at a half where D, which is 2^39, is in the position an odd number of times;
/// - a unit beyond a half at sample N-2, which is 5·D before the last: 5·D and the
///   shortfall are 2^39-1 together.
const ROWS: [(i64, u64); 3] = [(10_067, 30_030), (15_015, 30_030), (270_087, 2_700_880)];

/// The last in third order: N-2 is 4·jerk before the last, and that and the shortfall
/// are G+2^39-1 together.
const THIRD: (i64, u64) = (897_298, 2_392_797);

/// X and the intervals of a move, and the sample.
fn row(order: Order, random: &mut Random) -> (i64, [u64; 4], u64) {
    let third = order == Order::Third;
    let (x, p) = random.pick(&[ROWS[0], ROWS[1], if third { THIRD } else { ROWS[2] }]);
    loop {
        let [a, b, c] = [16, 32, 64].map(|most| random.between(2, most));
        let a = if third { 0 } else { a };
        let e = p / product([a, b, c, 1]) as u64;
        let ordered = a <= b && a + b <= c && a + b + c <= e && a + b + c + e <= 4_096;
        // V is W/e or more, and 1,024·G at most.
        let in_range = x as u64 <= 1_024 * e;
        let intervals = [a, b, c, e];
        if product(intervals) == p.into() && ordered && in_range {
            let motion = Move::new(x, [0; 4]);
            let profile = Profile::planned(order, &motion, &Plan::of(&motion, intervals));
            return (x, intervals, nearest_half(&profile));
        }
    }
}

/// A move in either direction with these intervals, from a start in the span.
fn motion(x: i64, intervals: [u64; 4], random: &mut Random) -> Move {
    let x = x * random.pick(&[1, -1]);
    let motion = moves::bounded(x, intervals.map(u128::from), [0; 3], random);
    starts::in_span(motion, random)
}

pub fn of_move(order: Order, random: &mut Random) -> (Move, u64) {
    let (x, intervals, k) = row(order, random);
    (motion(x, intervals, random), k)
}

/// One axis has these intervals by itself; others are shorter and raised to them.
pub fn of_axes(random: &mut Random) -> (Axes, u64) {
    let (x, [a, b, c, e], k) = row(Order::Fourth, random);
    let count = random.between(2, MOST_AXES as u64);
    let longest = random.below(count) as usize;
    let moves = std::array::from_fn(|place| {
        let least = if place == longest { e } else { a + b + c };
        motion(x, [a, b, c, random.between(least, e)], random)
    });
    (Axes { count, moves }, k)
}
