//! Document 01's own values, typed from the document; and the remainders of its second
//! move, worked by hand.

use reference::force::{force_table, Machine};
use reference::planner::Order::Fourth;
use reference::planner::{self, plan, Answer, Move};
use reference::profile::TableAnswer::Refused;
use reference::profile::{position_table, reference_table, sample, SampleAnswer};
use reference::sheet::report;

const G: u64 = 1 << 40;

/// The first of the "Moves to check by", with N = 8.
fn first() -> Move {
    Move::new(8, [2 * G, G, G, G])
}

/// m1 = 2, k12 and c.
fn machine(k12: f64, c: f64) -> Machine {
    Machine::new([2.0, 0.0, 0.0, 0.0, k12, c])
}

/// The number of the planner's refusal; 0 for a planned move.
fn refusal(x: i64, bounds: [u64; 4]) -> u8 {
    match plan(Fourth, &Move::new(x, bounds)) {
        Answer::Refused(number) => number,
        Answer::Planned(_) => 0,
    }
}

#[test]
fn moves_to_check_by() {
    // X, V, A, then p q r s, N, D and the shortfall.
    let rows = [
        (8, 2 * G, G, [1, 0, 0, 0], 8, G, 0),
        (8, G, G, [1, 0, 0, 4], 12, 1 << 39, 0),
        (1, 219902325556, G, [1, 0, 0, 1], 9, 109951162777, 6),
        (1, 219902325555, G, [1, 0, 0, 2], 10, 91625968981, 4),
        (96, 1000 * G, 4 * G, [1, 2, 0, 0], 16, G, 0),
        (96, 1000 * G, 2 * G, [1, 1, 3, 0], 18, 977343669134, 24),
        (4092, G, G, [1, 0, 0, 4088], 4096, 1 << 39, 0),
    ];
    for (x, v, a, durations, n, d, short) in rows {
        for x in [x, -x] {
            let Answer::Planned(plan) = plan(Fourth, &Move::new(x, [v, a, G, G])) else {
                panic!("{x} is refused");
            };
            assert_eq!(planner::durations(plan.intervals), durations);
            assert_eq!(
                [plan.samples(), plan.switched, plan.shortfall],
                [n, d, short]
            );
        }
    }
    assert_eq!([4093, -4093].map(|x| refusal(x, [G; 4])), [7; 2]);
}

#[test]
fn the_first_move_and_its_forces() {
    let velocity = [0, 0, 0, 1, 2, 2, 2, 1, 0];
    let position = [0, 0, 0, 0, 1, 3, 5, 7, 8];
    for k in 0..9 {
        let SampleAnswer::Sampled(at) = sample(Fourth, &first(), k as u64) else {
            panic!("sample {k} is refused");
        };
        assert_eq!(at.velocity, G as i64 * velocity[k]);
        assert_eq!(at.position, G as i64 * position[k]);
    }
    let mut rows = [0.0; 10];
    force_table(&first(), &machine(0.0, 1.0), &mut rows);
    assert_eq!(rows[3], 2199023255552.0);
    force_table(&first(), &machine(0.5, 1.0), &mut rows);
    assert_eq!(rows[2..4], [274877906944.0, 1649267441664.0]);
}

/// Document 02, request 2. Positions and remainders are in halves of a count.
#[test]
fn the_second_move_and_its_remainders() {
    let position = [0, 0, 0, 0, 1, 3, 5, 7, 9, 11, 13, 15, 16];
    let count = [0, 0, 0, 0, 1, 2, 3, 4, 5, 6, 7, 8, 8];
    let remainder = [0, 0, 0, 0, -1, -1, -1, -1, -1, -1, -1, -1, 0];
    for (k, direction) in (0..13).flat_map(|k| [(k, 1), (k, -1)]) {
        let motion = Move::new(8 * direction, [G; 4]);
        let SampleAnswer::Sampled(at) = sample(Fourth, &motion, k as u64) else {
            panic!("sample {k} is refused");
        };
        let worked = [position[k] << 39, count[k], remainder[k] << 39];
        let found = [at.position, at.count, at.remainder];
        assert_eq!(found, worked.map(|x| x * direction));
    }
}

#[test]
fn the_sheet_and_its_report() {
    let sheet = "1/2199023255552 1099511627776 1099511627776 1099511627776/3/8 1/-8 1/0 1/";
    let printed = "\
move 1 n 8 p 1 q 0 r 0 s 0 snap 1099511627776 short 0
move 2 n 8 p 1 q 0 r 0 s 0 snap -1099511627776 short 0
move 3 refused 1
";
    let found = report(sheet.replace('/', "\n").as_bytes());
    assert_eq!(String::from_utf8_lossy(&found), printed);
}

#[test]
fn the_reports_beside_the_example_sheets() {
    let sheets: [[&[u8]; 2]; 2] = [
        [
            include_bytes!("../../examples/paper.sheet"),
            include_bytes!("../../examples/paper.report"),
        ],
        [
            include_bytes!("../../examples/farm.sheet"),
            include_bytes!("../../examples/farm.report"),
        ],
    ];
    for [sheet, printed] in sheets {
        assert_eq!(report(sheet), printed);
    }
}

#[test]
fn the_example_of_each_refusal() {
    assert_eq!(refusal(0, [G; 4]), 1);
    assert_eq!(refusal(1_048_577, [G; 4]), 2);
    assert_eq!(refusal(8, [0, G, G, G]), 3);
    assert_eq!(refusal(8, [G, (1 << 50) + 1, G, G]), 4);
    assert_eq!(refusal(8, [G, G, 0, G]), 5);
    assert_eq!(refusal(8, [G, G, G, 0]), 6);
    assert_eq!(refusal(1, [1; 4]), 7);
    assert_eq!(position_table(Fourth, &first(), &mut [0; 8]), Refused(8));
    assert_eq!(reference_table(Fourth, &first(), &mut [0; 9]), Refused(8));
    let force = |c, table: &mut [f64]| force_table(&first(), &machine(0.0, c), table);
    let mut table = [7.0; 9];
    assert_eq!(force(1.0, &mut table), Refused(8));
    assert_eq!(table, [7.0; 9], "a refusal writes nothing");
    assert_eq!(sample(Fourth, &first(), 9), SampleAnswer::Refused(9));
    assert_eq!(force(0.0, &mut [0.0; 10]), Refused(10));
    assert_eq!(report(b""), b"sheet refused 11 line 1\n");
    assert_eq!(report(&[b'\n'; 65_536]), b"sheet refused 12\n");
}

#[test]
fn the_lowest_number_is_given() {
    let way = [0, -1_048_577, i64::MIN];
    assert_eq!(way.map(|x| refusal(x, [0; 4])), [1, 2, 2]);
    for o in [0, (1 << 50) + 1] {
        let bounds = [[o; 4], [1, o, o, o], [1, 1, o, o], [1, 1, 1, o]];
        assert_eq!(bounds.map(|bounds| refusal(8, bounds)), [3, 4, 5, 6]);
    }
    let (slow, bad) = (Move::new(1, [1; 4]), machine(0.0, 0.0));
    assert_eq!(sample(Fourth, &slow, u64::MAX), SampleAnswer::Refused(7));
    assert_eq!(force_table(&slow, &bad, &mut []), Refused(7));
    assert_eq!(force_table(&first(), &bad, &mut []), Refused(8));
}
