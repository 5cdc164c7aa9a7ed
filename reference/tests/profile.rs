//! Demand 3, line by line, of moves in both orders and of sets' axes; then the tables,
//! and rounding to counts.

use reference::planner::Order::{self, Fourth, Third};
use reference::planner::{durations, plan, plan_axes, Answer, Axes, Move, Plan};
use reference::profile::{position_table, reference_table, rounded, sample, sample_axes};
use reference::profile::{Rounding, Sample, SampleAnswer, TableAnswer};

const G: u64 = 1 << 40;

type Fill = fn(Order, &Move, &mut [i64]) -> TableAnswer;

/// Accepted moves in both directions, from 0 and across it, with p q r s zero and not.
fn moves(order: Order) -> impl Iterator<Item = Move> {
    // In fourth order the second has D = 2, nearly 3: few moves fall short as much.
    let mut list = vec![(1 << 20, [1 << 50; 4]), (1, [1 << 50, 1 << 50, 1 << 50, 3])];
    for shape in 0..54 {
        let [p, q, r, s] = [1 + shape % 2, shape / 2 % 3, shape / 6 % 3, shape / 18];
        // In third order p is 0, and q is not.
        let [p, q] = if order == Third { [0, p + q] } else { [p, q] };
        let (a, b, c) = (p, p + q, 2 * p + q + r);
        let jerk = a.max(1);
        let x = (jerk * b * c * (a + b + c + s)) as i64;
        let bounds = [jerk * b * c * G, jerk * b * G, jerk * G, G];
        list.extend([(x, bounds), (x - 1, bounds)]);
    }
    let both = |(x, bounds): (i64, _)| [Move::new(x, bounds), Move::new(-x, bounds)];
    let back = |motion: Move| motion.starting_at(-motion.displacement / 2);
    let each = list.into_iter().flat_map(both);
    each.flat_map(move |motion| [motion, back(motion)])
}

/// The samples of a move up to the first that is refused.
fn samples(order: Order, motion: &Move) -> Vec<Sample> {
    let at = |k| match sample(order, motion, k) {
        SampleAnswer::Sampled(at) => Some(at),
        SampleAnswer::Refused(_) => None,
    };
    (0..).map_while(at).collect()
}

/// Which of the five values is switched: the snap, or the jerk.
fn switched(order: Order) -> usize {
    4 - order as usize
}

/// Its sign at samples 0 to N.
fn signs(order: Order, plan: &Plan) -> Vec<i64> {
    let ([_, b, c, e], [p, q, r, s]) = (plan.intervals, durations(plan.intervals));
    let segments = match order {
        Third => vec![b, c - b, b, e - b - c, b, c - b, b],
        Fourth => vec![p, q, p, r, p, q, p, s, p, q, p, r, p, q, p],
    };
    // The first seven are those of the jerk too.
    let signs = [1, 0, -1, 0, -1, 0, 1, 0, -1, 0, 1, 0, 1, 0, -1];
    let pairs = segments.into_iter().zip(signs);
    let each = pairs.flat_map(|(segment, sign)| vec![sign; segment as usize]);
    each.chain([0]).collect()
}

/// W and P; a is no factor of it in third order.
fn way_and_product(order: Order, motion: &Move, plan: &Plan) -> [i128; 2] {
    let intervals = plan.intervals.map(i128::from);
    let p = intervals[switched(order)..].iter().product();
    [motion.w() as i128, p]
}

/// Samples 0 to N, with what is switched in its segments; above it all is 0.
fn assert_profile(order: Order, motion: &Move, plan: &Plan, samples: &[Sample]) {
    let [w, p] = way_and_product(order, motion, plan);
    let place = switched(order);
    let along = |at: &Sample| i128::from(at.values()[place] * motion.displacement.signum());
    let signs = signs(order, plan);
    let values = signs.iter().map(|sign| i128::from(*sign) * (w / p));
    assert!(samples.iter().map(along).eq(values));
    let above = |at: &Sample| at.values()[..place].iter().all(|value| *value == 0);
    assert!(samples.iter().all(above));
}

/// The position's sum begins at the start (document 02, request 7).
fn assert_sums_from_rest(order: Order, motion: &Move, samples: &[Sample]) {
    let first = switched(order) + 1;
    assert!((first..4).all(|value| samples[0].values()[value] == 0));
    assert_eq!(samples[0].position, motion.start * G as i64);
    for pair in samples.windows(2) {
        let (here, next) = (pair[0].values(), pair[1].values());
        assert!((first..5).all(|value| next[value] == here[value] + here[value - 1]));
    }
}

/// The bounds as sent, and never turning back.
fn assert_bounds(motion: &Move, at: &Sample) {
    let [v, acceleration, j, s] = motion.bounds();
    let sizes = at.values().map(i64::unsigned_abs);
    let bounds = [s, j, acceleration, v];
    assert!(sizes.iter().zip(bounds).all(|(size, bound)| *size <= bound));
    assert!(at.velocity * motion.displacement.signum() >= 0);
}

/// E is the position of the profile with W for what is switched, read from the start.
fn assert_half_count(order: Order, motion: &Move, plan: &Plan, samples: &[Sample]) {
    let [w, p] = way_and_product(order, motion, plan);
    let mut exact = [0; 5];
    for (at, sign) in samples.iter().zip(signs(order, plan)) {
        let distance = at.position - motion.start * G as i64;
        let behind = exact[4] - p * i128::from(distance * motion.displacement.signum());
        assert!(behind >= 0 && 2 * behind < i128::from(G) * p);
        exact[switched(order)] = i128::from(sign) * w;
        for value in (switched(order) + 1..5).rev() {
            exact[value] += exact[value - 1];
        }
    }
}

/// Position minus G times the count, half a count at most.
fn assert_remainder(at: &Sample) {
    assert_eq!(at.remainder, at.position - G as i64 * at.count);
    assert!(at.remainder.abs() <= 1 << 39);
}

/// With the remainders of document 02's request 2.
fn assert_demand_3(order: Order, motion: &Move, plan: &Plan, samples: &[Sample]) {
    assert_profile(order, motion, plan, samples);
    assert_sums_from_rest(order, motion, samples);
    samples.iter().for_each(|at| assert_bounds(motion, at));
    assert_half_count(order, motion, plan, samples);
    samples.iter().for_each(assert_remainder);
    let end = samples[samples.len() - 1];
    assert_eq!(end.values()[1..4], [0; 3]);
    assert_eq!(end.count, motion.start + motion.displacement);
    let short = plan.shortfall as i64 * motion.displacement.signum();
    assert_eq!(end.remainder, -short);
}

/// Each move in both orders, and the order.
fn moves_in_orders() -> impl Iterator<Item = (Order, Move)> {
    let all = [Third, Fourth].into_iter();
    all.flat_map(|order| moves(order).map(move |motion| (order, motion)))
}

#[test]
fn demand_3() {
    for (order, motion) in moves_in_orders() {
        let Answer::Planned(plan) = plan(order, &motion) else {
            panic!("an accepted move");
        };
        assert_demand_3(order, &motion, &plan, &samples(order, &motion));
    }
}

/// The rules hold for every axis of a set, by its raised e.
#[test]
fn demand_3_in_a_set() {
    let list: Vec<Move> = moves(Fourth).collect();
    for eight in list.chunks_exact(8) {
        let (count, moves) = (8, eight.try_into().expect("eight moves"));
        let axes = Axes { count, moves };
        let set = plan_axes(&axes).expect("an accepted set");
        let samples: Vec<_> = (0..=set.samples)
            .map(|k| sample_axes(&axes, k).expect("samples 0 to N"))
            .collect();
        for (place, motion) in moves.iter().enumerate() {
            let of_axis: Vec<Sample> = samples.iter().map(|at| at[place]).collect();
            assert_demand_3(Fourth, motion, &set.plans[place], &of_axis);
        }
    }
}

/// The rows of a table, which never turn back; it keeps every place beyond them, and all
/// of its places if there is one too few.
fn assert_table(fill: Fill, order: Order, motion: &Move, rows: &[i64]) {
    let expected = [rows, &[-7; 3]].concat();
    for places in [rows.len(), rows.len() + 3] {
        let mut table = vec![-7; places];
        let answer = fill(order, motion, &mut table);
        assert_eq!(answer, TableAnswer::Written(rows.len() as u64));
        assert_eq!(table, expected[..places]);
    }
    let mut short = vec![-7; rows.len() - 1];
    assert_eq!(fill(order, motion, &mut short), TableAnswer::Refused(8));
    assert_eq!(short, vec![-7; rows.len() - 1]);
}

#[test]
fn tables_of_positions_and_of_reference_rows() {
    for (order, motion) in moves_in_orders() {
        let samples = samples(order, &motion);
        let positions: Vec<i64> = samples.iter().map(|at| at.position).collect();
        assert_table(position_table, order, &motion, &positions);
        // Document 02, requests 4 and 7: before sample 0 it is the start's, after N the
        // last is held.
        let here = positions.iter().chain(positions.last());
        let before = [motion.start * G as i64]
            .into_iter()
            .chain(positions.clone());
        let rows: Vec<i64> = here.zip(before).map(|(x, y)| x + y).collect();
        assert_table(reference_table, order, &motion, &rows);
        let ahead = |pair: &[i64]| (pair[1] - pair[0]) * motion.displacement.signum() >= 0;
        assert!(rows.windows(2).all(ahead));
    }
}

/// In both directions, from positions that `paper.rs` and `third.rs` have, or that the
/// plans there lead to; they are in counts, in halves of a count or in what is switched.
#[test]
fn reference_rows_worked_by_hand() {
    let worked = |order, x: i64, bounds, unit: i64, rows: &[i64]| {
        for direction in [1, -1] {
            let motion = Move::new(x * direction, bounds);
            let rows: Vec<i64> = rows.iter().map(|row| row * unit * direction).collect();
            assert_table(reference_table, order, &motion, &rows);
        }
    };
    // 0 0 0 0 1 3 5 7 8.
    let rows = [0, 0, 0, 0, 1, 4, 8, 12, 15, 16];
    worked(Fourth, 8, [2 * G, G, G, G], 1099511627776, &rows);
    // 0 0 0 0 1 3 5 7 9 11 13 15 16.
    let rows = [0, 0, 0, 0, 1, 4, 8, 12, 16, 20, 24, 28, 31, 32];
    worked(Fourth, 8, [G; 4], 549755813888, &rows);
    // 0 0 0 0 1 3 5 7 9 10: the end is 6 units short, and the last row 12.
    let rows = [0, 0, 0, 0, 1, 4, 8, 12, 16, 19, 20];
    worked(Fourth, 1, [219902325556, G, G, G], 109951162777, &rows);
    // 0 0 0 1 4 9 15 21 27 33 38 41 42.
    let rows = [0, 0, 0, 1, 5, 13, 24, 36, 48, 60, 71, 79, 83, 84];
    worked(Third, 42, [6 * G, 2 * G, G, 0], 1099511627776, &rows);
    // 0 0 0 1 2 3 4 5: the end is 1 unit short, and the last row 2.
    let rows = [0, 0, 0, 1, 3, 5, 7, 9, 10];
    worked(Third, 1, [219902325556, G, G, 0], 219902325555, &rows);
}

#[test]
fn a_refused_table_is_kept() {
    // The places are for positions; with one more the reference rows lack one too.
    let rows = [
        (Fourth, 4092, 4096, 8),
        (Fourth, 0, 5000, 1),
        (Fourth, 4093, 5000, 7),
        (Third, 4094, 4096, 8),
        (Third, 4095, 5000, 7),
    ];
    for (order, x, places, number) in rows {
        let tables: [(usize, Fill); 2] = [(0, position_table), (1, reference_table)];
        for (more, fill) in tables {
            let mut table = vec![-7; places + more];
            let answer = fill(order, &Move::new(x, [G; 4]), &mut table);
            assert_eq!(answer, TableAnswer::Refused(number));
            assert_eq!(table, vec![-7; places + more]);
        }
    }
}

#[test]
fn nearest_counts_and_remainders_with_halves_away_from_zero() {
    let numbers = |position| {
        let Rounding { count, remainder } = rounded(0, position);
        [count, remainder]
    };
    let (g, half) = (G as i64, 1 << 39);
    // The last one leads up to i64::MAX, 1 unit before 2^23 counts.
    for below in [0, 1, 1_048_575, (1 << 23) - 1] {
        for units in [0, 1, half - 1] {
            let position = below * g + units;
            assert_eq!(numbers(position), [below, units]);
            assert_eq!(numbers(-position), [-below, -units]);
        }
        for units in [half, half - 1, 1] {
            let position = below * g + (g - units);
            assert_eq!(numbers(position), [below + 1, -units]);
            assert_eq!(numbers(-position), [-below - 1, units]);
        }
    }
    assert_eq!(numbers(i64::MIN), [-(1 << 23), 0]);
}
