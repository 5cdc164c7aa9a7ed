//! The force rows, computed straight from their definition.

use reference::force::{force_table, Coefficients, Doubled, Machine};
use reference::planner::Order::Fourth;
use reference::planner::{plan, Move};
use reference::profile::{sample, SampleAnswer, TableAnswer};

const G: u64 = 1 << 40;
const MOST: f64 = 1_048_576.0;
const LEAST_C: f64 = 1.0 / MOST;

/// m1, m2, k1, k2, k12 and c; in the first any other order of sums shows.
const MACHINES: [[f64; 6]; 6] = [
    [5.1, 4.8, 7.1, 1.7, 0.7, 1.8],
    [5.1, 4.8, 7.1, 1.7, -0.0, 1.8],
    [0.1, -0.0, 7.7, -0.0, 300.3, 0.7],
    [-0.0, -0.0, -0.0, -0.0, -0.0, 3.0],
    [-0.0, -0.0, -0.0, -0.0, 0.3, 3.0],
    [MOST, MOST, MOST, MOST, 1e-300, LEAST_C],
];

/// Of N = 8, 9 and 45; the second has an odd D.
fn moves() -> [Move; 3] {
    [
        Move::new(8, [2 * G, G, G, G]),
        Move::new(1, [219902325556, G, G, G]),
        Move::new(-3120, [120 * G, 10 * G, 2 * G, G]),
    ]
}

/// d2, j2, a2 and v2 of rows 0 to N+1.
fn doubled(motion: &Move) -> Vec<[i64; 4]> {
    let n = plan(Fourth, motion).samples().expect("an accepted move") as i64;
    let at = |k: i64| match sample(Fourth, motion, k as u64) {
        SampleAnswer::Sampled(at) => at.values(),
        SampleAnswer::Refused(_) => [0; 5], // before sample 0 or after N
    };
    let row = |k| {
        let [two, one, here] = [at(k - 2), at(k - 1), at(k)];
        [2 * two[0], one[1] + two[1], 2 * one[2], here[3] + one[3]]
    };
    (0..=n + 1).map(row).collect()
}

/// The forces of all rows on a machine in its ranges.
fn forces(rows: &[[i64; 4]], numbers: [f64; 6]) -> Vec<f64> {
    // Either zero plus 0 is plus zero.
    let [m1, m2, k1, k2, k12, c] = numbers.map(|x| x + 0.0);
    let q1 = m1 * m2;
    let q2 = (m1 + m2) * k12 + m1 * k2 + m2 * k1;
    let q3 = (m1 + m2) * c + k1 * k2 + (k1 + k2) * k12;
    let q4 = (k1 + k2) * c;
    let g = 2.0 * k12 + c;
    let (alpha, beta) = ((2.0 * k12 - c) / g, 1.0 / g);
    let (mut y_before, mut u_before) = (0.0, 0.0);
    let force = |row: &[i64; 4]| {
        let [d2, j2, a2, v2] = row.map(|x| x as f64);
        let u = (q1 * d2 + q2 * j2 + q3 * a2 + q4 * v2) * 0.5;
        if k12 == 0.0 {
            return u / c;
        }
        y_before = alpha * y_before + beta * (u + u_before);
        u_before = u;
        y_before
    };
    rows.iter().map(force).collect()
}

#[test]
fn rows_have_the_bits_of_their_definition() {
    for motion in moves() {
        let rows = doubled(&motion);
        for numbers in MACHINES {
            let mut expected = forces(&rows, numbers);
            expected.push(-7.0);
            let mut table = vec![-7.0; expected.len()];
            let answer = force_table(&motion, &Machine::new(numbers), &mut table);
            assert_eq!(answer, TableAnswer::Written(rows.len() as u64));
            let bits = |table: Vec<f64>| table.into_iter().map(f64::to_bits).collect::<Vec<_>>();
            assert_eq!(bits(table), bits(expected), "{numbers:?} {motion:?}");
        }
    }
}

#[test]
fn the_limits_of_each_number() {
    for place in 0..6 {
        let refused = |number| {
            let mut numbers = [1.0; 6];
            numbers[place] = number;
            let mut table = [-7.0; 10];
            let answer = force_table(&moves()[0], &Machine::new(numbers), &mut table);
            // A refusal keeps the table.
            answer == TableAnswer::Refused(10) && table == [-7.0; 10]
        };
        assert_eq!([MOST, LEAST_C].map(refused), [false; 2]);
        let wrong = [MOST.next_up(), -1e-300, f64::NAN, f64::INFINITY];
        assert_eq!(wrong.map(refused), [true; 4]);
        // Only the stiffness has a least number above 0.
        let low = [LEAST_C.next_down(), 0.0, -0.0];
        assert_eq!(low.map(refused), [place == 5; 3]);
    }
}

/// Here 2^53 is nearly reached.
#[test]
fn whole_numbers_within_2_to_the_53_are_exact() {
    let numbers = [67, 63, 93, 42, 48, 55];
    let q = Coefficients::of(&Machine::new(numbers.map(|x| x as f64)));
    let [m1, m2, k1, k2, k12, c] = numbers;
    let q2 = (m1 + m2) * k12 + m1 * k2 + m2 * k1;
    let q3 = (m1 + m2) * c + k1 * k2 + (k1 + k2) * k12;
    for [d2, j2, a2, v2] in doubled(&moves()[1]) {
        let products = [m1 * m2 * d2, q2 * j2, q3 * a2, (k1 + k2) * c * v2];
        assert!(products.map(i64::abs).iter().sum::<i64>() <= 1 << 53);
        let twice = products.iter().sum::<i64>();
        assert_eq!(q.u(Doubled { d2, j2, a2, v2 }), twice as f64 / 2.0);
    }
}
