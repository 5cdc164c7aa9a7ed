//! The rules of the intervals, four or in third order three, read literally.

use reference::least::least;
use reference::planner::Order::{Fourth, Third};
use reference::planner::{plan, Answer, Intervals, Move, Plan};

const G: u64 = 1 << 40;

/// "The least whole number from 1 up with the stated property", by counting.
/// Past 4,096 any number does: an interval of that length is refused already.
fn counted(holds: impl Fn(u128) -> bool) -> u128 {
    (1..=4096).find(|n| holds(*n)).unwrap_or(4097)
}

/// The plan of a move whose X and bounds are in their spans.
fn by_the_rules(x: i64, bounds: [u64; 4]) -> Answer {
    let w = u128::from(G) * u128::from(x.unsigned_abs());
    let [v, acc, j, s] = bounds.map(u128::from);
    let a = counted(|n| 8 * s * n.pow(4) >= w)
        .min(counted(|n| 2 * s * n.pow(3) >= v))
        .min(counted(|n| s * n.pow(2) >= acc))
        .min(counted(|n| s * n >= j));
    let j1 = j.min(s * a);
    let b = counted(|n| 2 * j1 * n * (a + n).pow(2) >= w)
        .min(counted(|n| j1 * n * (a + n) >= v))
        .min(counted(|n| j1 * n >= acc))
        .max(a);
    let a1 = acc.min(j1 * b);
    let c = counted(|n| a1 * n * (a + b + n) >= w)
        .min(counted(|n| a1 * n >= v))
        .max(a + b);
    let v1 = v.min(a1 * c);
    let e = counted(|n| v1 * n >= w).max(a + b + c);
    planned(w, a * b * c * e, [a, b, c, e])
}

/// Document 02, request 3, in third order.
fn by_the_third_rules(x: i64, bounds: [u64; 4]) -> Answer {
    let w = u128::from(G) * u128::from(x.unsigned_abs());
    let [v, acc, j, _] = bounds.map(u128::from);
    let b = counted(|n| 2 * j * n.pow(3) >= w)
        .min(counted(|n| j * n.pow(2) >= v))
        .min(counted(|n| j * n >= acc));
    let a1 = acc.min(j * b);
    let c = counted(|n| a1 * n * (b + n) >= w)
        .min(counted(|n| a1 * n >= v))
        .max(b);
    let v1 = v.min(a1 * c);
    let e = counted(|n| v1 * n >= w).max(b + c);
    planned(w, b * c * e, [0, b, c, e])
}

/// W divided by P, and what that leaves; or 7.
fn planned(w: u128, p: u128, intervals: [u128; 4]) -> Answer {
    if intervals.iter().sum::<u128>() > 4096 {
        return Answer::Refused(7);
    }
    Answer::Planned(Plan {
        intervals: intervals.map(|n| n as u64),
        switched: (w / p) as u64,
        shortfall: (w % p) as u64,
    })
}

/// Every X, in both directions, with every choice of bounds, the greatest too.
#[test]
fn plans_are_those_of_the_rules() {
    let small = ([1, 2, 3, 8, 95, 96], [G / 5, G / 2 + 1, G, 2 * G, 5 * G]);
    // From S = 2^13 on, 8·S·n^4 passes 64 bits in a search up to n = 4,096.
    let bounds = [3, 1 << 14, 1 << 26, 1 << 38, 1 << 50];
    let large = ([1, 2, 97, 4092, 4093, 1_048_576], bounds);
    for (displacements, bounds) in [small, large] {
        for choice in 0..625 {
            let bounds = [1, 5, 25, 125].map(|place| bounds[choice / place % 5]);
            for x in displacements.into_iter().flat_map(|x| [x, -x]) {
                let answers = [Fourth, Third].map(|order| plan(order, &Move::new(x, bounds)));
                let wanted = [by_the_rules(x, bounds), by_the_third_rules(x, bounds)];
                assert_eq!(answers, wanted, "{x} {bounds:?}");
            }
        }
    }
}

#[test]
fn at_most_4096_samples() {
    // X, and bounds with which each property holds with equality.
    let rows = [
        (Fourth, 4092, [1 << 29, 1 << 19, 1 << 10, 2]),
        (Third, 4094, [1 << 29, 1 << 19, 1 << 9, 0]),
    ];
    for (order, x, slowest) in rows {
        let samples = |x| Intervals::of(order, &Move::new(x, [G; 4])).map(|found| found.samples());
        assert_eq!([samples(x), samples(x + 1)], [Ok(4096), Ok(4097)]);
        assert_eq!(plan(order, &Move::new(1, slowest)).samples(), Some(4096));
        // Any bound lowered is too slow.
        for place in 0..order as usize {
            let mut bounds = slowest;
            bounds[place] -= 1;
            assert_eq!(plan(order, &Move::new(1, bounds)), Answer::Refused(7));
        }
    }
}

#[test]
fn the_search_finds_what_counting_finds() {
    for (target, power) in (0..700).flat_map(|target| [(target, 1), (target, 4)]) {
        let holds = |n: u128| 2 * n.pow(power) >= target;
        assert_eq!(least(holds), counted(holds));
    }
    assert_eq!(least(|n| n > 1 << 60), (1 << 60) + 1);
}
