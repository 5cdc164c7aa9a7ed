//! Document 02, request 7: moves from a start, worked by hand, and the request's words.

use reference::force::Machine;
use reference::planner::Order::{self, Fourth, Third};
use reference::planner::{plan, plan_axes, Axes, Move, MOST_AXES};
use reference::profile::{reference_table, sample, sample_axes, Sample, SampleAnswer};
use reference::request::Request;

const G: u64 = 1 << 40;
const MOST: i64 = 1_048_576;

fn at(order: Order, motion: &Move, k: u64) -> Sample {
    match sample(order, motion, k) {
        SampleAnswer::Sampled(at) => at,
        refused => panic!("{motion:?} {k}: {refused:?}"),
    }
}

/// The positions, in halves of a count, and the counts of a move, and of its mirror; the
/// other values are those from start 0.
fn assert_worked(order: Order, motion: Move, halves: &[i64], counts: &[i64]) {
    for (k, sign) in (0..halves.len()).flat_map(|k| [(k, 1), (k, -1)]) {
        let from_0 = Move::new(motion.displacement * sign, motion.bounds());
        let motions = [from_0.starting_at(motion.start * sign), from_0];
        let [at, other] = motions.map(|motion| at(order, &motion, k as u64));
        assert_eq!(at.values()[..4], other.values()[..4]);
        let left = halves[k] - 2 * counts[k];
        let worked = [halves[k] << 39, counts[k], left << 39];
        let found = [at.position, at.count, at.remainder];
        assert_eq!(found, worked.map(|x| x * sign), "{motion:?} {k}");
    }
}

/// Document 01's first and second moves to check by, and the move of third order that has
/// half its jerk. At a half the count is the one farther from the start, on either side of
/// the rail's zero.
#[test]
fn positions_and_counts_from_a_start() {
    let (first, second) = (Move::new(8, [2 * G, G, G, G]), Move::new(8, [G; 4]));
    let halves = [200, 200, 200, 200, 202, 206, 210, 214, 216];
    let counts = [100, 100, 100, 100, 101, 103, 105, 107, 108];
    assert_worked(Fourth, first.starting_at(100), &halves, &counts);
    let halves = [-6, -6, -6, -6, -4, 0, 4, 8, 10];
    let counts = [-3, -3, -3, -3, -2, 0, 2, 4, 5];
    assert_worked(Fourth, first.starting_at(-3), &halves, &counts);
    let halves = [-10, -10, -10, -10, -9, -7, -5, -3, -1, 1, 3, 5, 6];
    let counts = [-5, -5, -5, -5, -4, -3, -2, -1, 0, 1, 2, 3, 3];
    assert_worked(Fourth, second.starting_at(-5), &halves, &counts);
    let third = Move::new(8, [1000 * G, 1000 * G, G, 0]);
    let halves = [-10, -10, -10, -9, -6, -2, 2, 5, 6];
    let counts = [-5, -5, -5, -4, -3, -1, 1, 3, 3];
    assert_worked(Third, third.starting_at(-5), &halves, &counts);
}

/// Before sample 0 the position is the start's. In counts.
#[test]
fn reference_rows_from_a_start() {
    for sign in [1, -1] {
        let motion = Move::new(8 * sign, [2 * G, G, G, G]).starting_at(100 * sign);
        let mut table = [0; 10];
        reference_table(Fourth, &motion, &mut table);
        let rows = [200, 200, 200, 200, 201, 204, 208, 212, 215, 216];
        assert_eq!(table, rows.map(|row| (row * sign) << 40));
    }
}

/// Two moves in sequence: the counts join, and the positions but for the shortfall of the
/// first. W is 2^40; P is 10 and 5, then 8 and 2, in fourth and in third order.
#[test]
fn one_move_hands_over_to_the_next() {
    let v = 219_902_325_556;
    for (order, v, shortfall) in [(Fourth, v, 6), (Third, v, 1), (Fourth, G, 0), (Third, G, 0)] {
        for x in [1, -1] {
            let first = Move::new(x, [v, G, G, G]).starting_at(-3);
            let n = plan(order, &first).samples().expect("an accepted move");
            let last = at(order, &first, n);
            let next = at(order, &first.starting_at(-3 + x), 0);
            assert_eq!([last.count, next.count], [-3 + x; 2]);
            assert_eq!(next.position - last.position, shortfall * x);
        }
    }
}

/// A set of these axes; no place after them is at 0.
fn set(axes: &[Move]) -> Axes {
    let mut moves = [Move::new(8, [G; 4]).starting_at(9); MOST_AXES];
    moves[..axes.len()].copy_from_slice(axes);
    let count = axes.len() as u64;
    Axes { count, moves }
}

/// At sample 4 the first and the last are half a count from their starts.
#[test]
fn each_axis_has_its_own_start() {
    let [rail, rest, lift] = [8, 0, -8].map(|x| Move::new(x, [G; 4]));
    let axes = [(rail, 100), (rest, -7), (lift, 3)].map(|(axis, start)| axis.starting_at(start));
    assert_eq!(plan_axes(&set(&axes)), plan_axes(&set(&[rail, rest, lift])));
    let found = sample_axes(&set(&axes), 4).expect("an accepted set");
    let in_halves = |at: &Sample| [at.velocity >> 39, at.position >> 39, at.count];
    let worked = [[2, 201, 101], [0, -14, -7], [-2, 5, 2]];
    assert_eq!(found.each_ref().map(in_halves)[..3], worked);
    assert_eq!(found[1].values()[..4], [0; 4]);
    assert_eq!(found.map(|at| at.remainder >> 39)[..3], [-1, 0, 1]);
    assert_eq!(found[3..], [Sample::default(); 5]);
}

/// Every entry's refusal of a move: plan, sample and two tables in each order, and forces.
fn refusals(motion: Move, k: u64, places: u64, c: f64) -> Vec<i128> {
    let mut all = Vec::new();
    for order in [Fourth, Third] {
        all.push(Request::Plan(order, motion));
        all.push(Request::Sample(order, motion, k));
        all.push(Request::Positions(order, motion, places));
        all.push(Request::Reference(order, motion, places));
    }
    let machine = Machine::new([1.0, 1.0, 1.0, 1.0, 1.0, c]);
    all.push(Request::Force(motion, machine, places));
    let refusal = |request: &Request| request.expected().refusal();
    all.iter().map(refusal).collect()
}

/// Start and X with the refusal: every start at an edge and next to it with every X at an
/// edge; and rows by hand.
#[test]
fn start_and_end_keep_the_span() {
    let mut rows = vec![(3, -8, 0), (-3, 8, 0)];
    for far in [MOST + 1, -MOST - 1, i64::MAX, i64::MIN] {
        rows.extend([(far, 0, 1), (far, far, 2)]);
    }
    for half in [MOST / 2, -MOST / 2] {
        rows.extend([(half, half, 0), (half, half + half.signum(), 14)]);
    }
    let outside = |count: i128| count.abs() > 1_048_576;
    for edge in [i64::MIN, -MOST, 0, MOST, i64::MAX] {
        for start in [-1, 0, 1].map(|step| edge.wrapping_add(step)) {
            let ends = |x: i64| [start.into(), i128::from(start) + i128::from(x)];
            let number = |x| 14 * i128::from(ends(x).into_iter().any(outside));
            rows.extend([1, -1, MOST, -MOST].map(|x| (start, x, number(x))));
        }
    }
    let widest = [1 << 50; 4];
    for (start, x, number) in rows {
        let motion = Move::new(x, widest).starting_at(start);
        assert_eq!(refusals(motion, 0, 4_098, 1.0), [number; 9], "{start} {x}");
        // An axis at rest is asked for its start too.
        let refusal = plan_axes(&set(&[Move::new(1, widest), motion])).err();
        let number = if x == 0 { 14 } else { number };
        assert_eq!(refusal.map_or(0, |refusal| refusal.number.into()), number);
    }
}

/// The other numbers sent are refused too: sample, places, machine.
#[test]
fn refusal_14_comes_after_6_and_before_7() {
    let found = |start, bounds| {
        let motion = Move::new(-1, bounds).starting_at(start);
        refusals(motion, u64::MAX, 0, 0.0)
    };
    assert_eq!(found(MOST + 1, [1, 1, 0, 0]), [5; 9]);
    // In third order S is not read. With bounds of 1 the samples are too many.
    let without_s = [6, 6, 6, 6, 14, 14, 14, 14, 6];
    assert_eq!(found(MOST + 1, [1, 1, 1, 0]), without_s);
    assert_eq!(found(MOST + 1, [1; 4]), [14; 9]);
    assert_eq!(found(MOST, [1; 4]), [7; 9]);
}
