//! Document 02, request 3: moves worked by hand as chapter 5 of document 001 does, and
//! the request's words.

use reference::planner::Order::Third;
use reference::planner::{plan, Answer, Move};
use reference::profile::{sample, SampleAnswer};

const G: u64 = 1 << 40;
const ABOVE: u64 = (1 << 50) + 1;

/// N, and b, c, e, the jerk and the shortfall; or the refusal.
fn planned(x: i64, bounds: [u64; 4]) -> Result<(u64, [u64; 5]), u8> {
    match plan(Third, &Move::new(x, bounds)) {
        Answer::Refused(number) => Err(number),
        Answer::Planned(plan) => {
            let [_, numbers @ ..] = plan.numbers();
            Ok((plan.samples(), numbers))
        }
    }
}

fn refusal(x: i64, bounds: [u64; 4]) -> u8 {
    planned(x, bounds).err().unwrap_or(0)
}

/// x, v, a and j, and the times of constant jerk, acceleration and velocity, by the
/// equations that decide; all are whole, so that nothing is rounded.
#[test]
fn each_way_of_chapter_5() {
    let rows = [
        // Equation 16: the cube root of 54/2.
        ([54, 1000, 1000, 1], [3, 0, 0]),
        // 18: the root of 4/1. 28: (24-16)/4.
        ([24, 4, 1000, 1], [2, 0, 2]),
        // 20: 2/2. 25: the root of 1+4·24/2 is 7, and 7/2-3/2 is 2.
        ([24, 1000, 2, 2], [1, 2, 0]),
        // 20: 2/1. 27: 6/2-2. 28: (42-16-12-2)/6.
        ([42, 6, 2, 1], [2, 1, 2]),
    ];
    for ([x, v, a, j], [tj, ta, tv]) in rows {
        // 29: the way is x again.
        let times = 2 * tj * tj * tj + 3 * tj * tj * ta + tj * ta * ta;
        assert_eq!(j * (times + tj * tj * tv + tj * ta * tv), x);
        let (b, c, e) = (tj, tj + ta, 2 * tj + ta + tv);
        let found = planned(x as i64, [v * G, a * G, j * G, 0]);
        assert_eq!(found, Ok((4 * tj + 2 * ta + tv, [b, c, e, j * G, 0])));
    }
}

/// Jerk, acceleration, velocity, position and remainder at every sample, in a part of a
/// count, in both directions and with any S.
fn assert_worked(x: i64, [v, a, j]: [u64; 3], unit: i64, values: [&[i64]; 5]) {
    for s in [0, 1, G, ABOVE - 1, ABOVE, u64::MAX] {
        for (k, direction) in (0..values[0].len()).flat_map(|k| [(k, 1), (k, -1)]) {
            let motion = Move::new(x * direction, [v, a, j, s]);
            let SampleAnswer::Sampled(at) = sample(Third, &motion, k as u64) else {
                panic!("sample {k} is refused");
            };
            let worked = values.map(|value| value[k] * unit * direction);
            let [jerk, acceleration, velocity, position, remainder] = worked;
            assert_eq!(at.values(), [0, jerk, acceleration, velocity, position]);
            let count = (position - remainder) / G as i64;
            assert_eq!([at.count, at.remainder], [count, remainder]);
        }
    }
}

/// The last of the rows above: b is 2, c 3 and e 7, so the segments have 2 1 2 2 2 1 2
/// samples.
#[test]
fn a_move_with_all_segments() {
    let values: [&[i64]; 5] = [
        &[1, 1, 0, -1, -1, 0, 0, -1, -1, 0, 1, 1, 0],
        &[0, 1, 2, 2, 1, 0, 0, 0, -1, -2, -2, -1, 0],
        &[0, 0, 1, 3, 5, 6, 6, 6, 6, 5, 3, 1, 0],
        &[0, 0, 0, 1, 4, 9, 15, 21, 27, 33, 38, 41, 42],
        &[0; 13],
    ];
    assert_worked(42, [6 * G, 2 * G, G], G as i64, values);
}

/// The cube root of 8/2 (equation 16) is raised to 2, which leaves half the jerk. Values
/// are in halves of a count.
#[test]
fn a_move_with_half_its_jerk() {
    let large = 1000 * G;
    let found = planned(8, [large, large, G, 0]);
    assert_eq!(found, Ok((8, [2, 2, 4, G / 2, 0])));
    let values: [&[i64]; 5] = [
        &[1, 1, -1, -1, -1, -1, 1, 1, 0],
        &[0, 1, 2, 1, 0, -1, -2, -1, 0],
        &[0, 0, 1, 3, 4, 4, 3, 1, 0],
        &[0, 0, 0, 1, 4, 8, 12, 15, 16],
        &[0, 0, 0, -1, 0, 0, 0, -1, 0],
    ];
    assert_worked(8, [large, large, G], 1 << 39, values);
}

/// Document 01's moves to check by, which have J = G.
#[test]
fn the_moves_to_check_by() {
    let rows = [
        (8, 2 * G, G, 7, [1, 2, 4, G, 0]),
        (8, G, G, 10, [1, 1, 8, G, 0]),
        (1, 219902325556, G, 7, [1, 1, 5, 219902325555, 1]),
        (1, 219902325555, G, 8, [1, 1, 6, 183251937962, 4]),
        (96, 1000 * G, 4 * G, 16, [4, 4, 8, 3 * G / 4, 0]),
        (96, 1000 * G, 2 * G, 16, [2, 6, 8, G, 0]),
        (4092, G, G, 4094, [1, 1, 4092, G, 0]),
        (4093, G, G, 4095, [1, 1, 4093, G, 0]),
    ];
    for (x, v, a, n, numbers) in rows {
        for x in [x, -x] {
            assert_eq!(planned(x, [v, a, G, 0]), Ok((n, numbers)));
        }
    }
}

#[test]
fn the_lowest_refusal_is_given_and_never_6() {
    let way = [0, 1_048_577, -1_048_577, i64::MIN];
    assert_eq!(way.map(|x| refusal(x, [0; 4])), [1, 2, 2, 2]);
    for o in [0, ABOVE] {
        let bounds = [[o; 4], [1, o, o, o], [1, 1, o, o], [1, 1, 1, o]];
        assert_eq!(bounds.map(|bounds| refusal(8, bounds)), [3, 4, 5, 7]);
        let long = [4094, -4094, 4095].map(|x| Move::new(x, [G, G, G, o]));
        let sampled = |motion: &Move| match sample(Third, motion, 4097) {
            SampleAnswer::Refused(number) => number,
            SampleAnswer::Sampled(_) => 0,
        };
        assert_eq!(long.each_ref().map(sampled), [9, 9, 7]);
    }
}
