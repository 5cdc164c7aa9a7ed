//! Document 02, request 1: sets worked by hand from document 01's moves, and the
//! request's words.

use reference::draw::axes_edges;
use reference::planner::{plan_axes, Axes, AxesRefusal, Move, Plan, MOST_AXES};
use reference::profile::{sample_axes, Sample};

const G: u64 = 1 << 40;
const ABOVE: u64 = (1 << 50) + 1;

/// A row of the "Moves to check by": X, V and A.
fn row(x: i64, velocity: u64, acceleration: u64) -> Move {
    Move::new(x, [velocity, acceleration, G, G])
}

/// N = 8, 12, 9, 16, 18 and 4,096.
fn rows() -> [Move; 6] {
    [
        row(8, 2 * G, G),
        row(-8, G, G),
        row(1, 219902325556, G),
        row(96, 1000 * G, 4 * G),
        row(-96, 1000 * G, 2 * G),
        row(4092, G, G),
    ]
}

/// A set of these axes; each place after them would be refused.
fn set(axes: &[Move]) -> Axes {
    let count = axes.len() as u64;
    let mut moves = [Move::new(i64::MIN, [0; 4]); MOST_AXES];
    moves[..axes.len()].copy_from_slice(axes);
    Axes { count, moves }
}

fn at_rest(bounds: [u64; 4]) -> Move {
    Move::new(0, bounds)
}

/// The common N, and the six numbers of each place up to the count.
fn planned(axes: &[Move]) -> (u64, Vec<[u64; 6]>) {
    let found = plan_axes(&set(axes)).expect("an accepted set");
    let (counted, after) = found.plans.split_at(axes.len());
    assert!(after.iter().all(|plan| *plan == Plan::default()));
    let numbers = counted.iter().map(|plan| plan.numbers()).collect();
    (found.samples, numbers)
}

/// The place and the number, both 0 if it is accepted.
fn refusal<T>(answer: Result<T, AxesRefusal>) -> (u64, u8) {
    let AxesRefusal { place, number } = answer.err().unwrap_or_default();
    (place, number)
}

#[test]
fn shorter_axes_are_raised_and_find_d_again() {
    let [first, second, third, fifth, sixth, seventh] = rows();
    let rest = at_rest([1, ABOVE - 1, G, 1]);
    // The first row has W = 8G and P = 2e: 8G/16 is 2^39, and 8G/10 leaves 8 grains.
    let raised = [1, 1, 2, 8, 1 << 39, 0];
    let found = planned(&[first, second, rest]);
    assert_eq!(found, (12, vec![raised, raised, [0; 6]]));
    let raised = [1, 1, 2, 5, 879609302220, 8];
    let found = planned(&[rest, third, first]);
    assert_eq!(
        found,
        (9, vec![[0; 6], [1, 1, 2, 5, 109951162777, 6], raised])
    );
    // 96G/120 leaves 96 grains.
    let raised = [1, 3, 4, 10, 879609302220, 96];
    let found = planned(&[sixth, fifth]);
    assert_eq!(found, (18, vec![[1, 2, 6, 9, 977343669134, 24], raised]));
    // 8G/8,184 is 2^40/1,023, and 2^40 is 1,023 times 1,074,791,425 and 1.
    let raised = [1, 1, 2, 4092, 1074791425, 8];
    let found = planned(&[first, seventh]);
    assert_eq!(found, (4096, vec![raised, [1, 1, 2, 4092, 1 << 39, 0]]));
    assert_eq!(planned(&[first]), (8, vec![[1, 1, 2, 4, G, 0]]));
}

#[test]
fn every_axis_is_sampled_to_the_common_end() {
    let [first, second, ..] = rows();
    let axes = set(&[first, at_rest([G; 4]), second]);
    // Of both, in halves of a count; halves go away from zero.
    let velocity = [0, 0, 0, 1, 2, 2, 2, 2, 2, 2, 2, 1, 0];
    let position = [0, 0, 0, 0, 1, 3, 5, 7, 9, 11, 13, 15, 16];
    for k in 0..13 {
        let samples = sample_axes(&axes, k as u64).expect("samples 0 to 12");
        let [rail, rest, lift, after @ ..] = samples;
        for (at, direction) in [(rail, 1), (lift, -1)] {
            assert_eq!(at.velocity, direction * (velocity[k] << 39));
            assert_eq!(at.position, direction * (position[k] << 39));
            assert_eq!(at.count, direction * ((position[k] + 1) / 2));
            assert_eq!(at.remainder, -direction * ((position[k] % 2) << 39));
        }
        assert_eq!(rest, Sample::default());
        assert_eq!(after, [Sample::default(); 5]);
    }
}

#[test]
fn the_first_axis_that_is_refused_refuses_the_set() {
    for (axes, wanted) in axes_edges::sets() {
        assert_eq!(refusal(plan_axes(&axes)), wanted);
    }
}

#[test]
fn a_sample_above_the_common_end_is_refused_after_the_axes() {
    for (axes, k, wanted) in axes_edges::samples() {
        assert_eq!(refusal(sample_axes(&axes, k)), wanted);
    }
}
