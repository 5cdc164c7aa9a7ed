//! A planner in 64 bits.
//!
//! It takes the same way as the program that is timed against it. The searches of
//! an interval go from the paper's last to its first. Each ends at 4,097, since
//! more samples are refused, or at what the search before it found. It compares
//! f(n) with target/bound, rounded up, in place of bound·f(n) with the target, and
//! does not look beyond that quotient, since n ≤ f(n).
//!
//! Nothing passes 64 bits: each f(n) is below 2^50, and J1, A1 and V1 come from
//! products of at most 2^50 and an interval of 8,194.

use reference::planner::{Answer, Move, Order, Plan, MOST_SAMPLES};

/// What a search gives where no number up to 4,096 has its property. One such
/// interval makes a refusal, so later ones need not be right.
const NONE: u64 = MOST_SAMPLES as u64 + 1;

/// Plans a move as `plan` does.
pub fn plan_narrow(motion: &Move) -> Answer {
    if let Some(number) = motion.range_refusal(Order::Fourth) {
        return Answer::Refused(number);
    }
    let w = motion.displacement.unsigned_abs() << 40;
    let intervals = intervals(motion, w);
    if intervals.iter().sum::<u64>() >= NONE {
        return Answer::Refused(7);
    }
    planned(w, intervals)
}

fn intervals(motion: &Move, w: u64) -> [u64; 4] {
    let [v, acceleration, j, s] = motion.bounds();
    let a = least(1, NONE, j.div_ceil(s), |n| n);
    let a = least(1, a, acceleration.div_ceil(s), |n| n * n);
    let a = least(1, a, v.div_ceil(2 * s), |n| n * n * n);
    let a = least(1, a, w.div_ceil(8 * s), |n| n * n * n * n);
    let j1 = j.min(s * a);
    let b = least(a, NONE, acceleration.div_ceil(j1), |n| n);
    let b = least(a, b, v.div_ceil(j1), |n| n * (a + n));
    let b = least(a, b, w.div_ceil(2 * j1), |n| n * (a + n) * (a + n));
    let a1 = acceleration.min(j1 * b);
    let c = least(a + b, NONE, v.div_ceil(a1), |n| n);
    let c = least(a + b, c, w.div_ceil(a1), |n| n * (a + b + n));
    let v1 = v.min(a1 * c);
    let e = least(a + b + c, NONE, w.div_ceil(v1), |n| n);
    [a, b, c, e]
}

/// The least n from `low` up with `growth`(n) ≥ `needed`, or `high` if there is
/// none below that. The span may be empty: then it is `low`.
fn least(mut low: u64, high: u64, needed: u64, growth: impl Fn(u64) -> u64) -> u64 {
    let mut high = high.min(needed);
    while low < high {
        let middle = (low + high) / 2;
        if growth(middle) >= needed {
            high = middle;
        } else {
            low = middle + 1;
        }
    }
    low
}

fn planned(w: u64, [a, b, c, e]: [u64; 4]) -> Answer {
    let p = a * b * c * e;
    let switched = w / p;
    let (intervals, shortfall) = ([a, b, c, e], w - switched * p);
    Answer::Planned(Plan {
        intervals,
        switched,
        shortfall,
    })
}
