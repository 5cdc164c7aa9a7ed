use super::assert_found;
use linked::differential::{Entries, Proved};
use linked::library::{Axes, AxesSampleResult, Move, SampleResult};
use reference::profile::Sample;

/// What becomes of right values at a sample, of a move in either order or of each axis.
struct Samples(fn(u64, &mut Sample));

impl Entries for Samples {
    fn sample_move(&self, motion: Move, sample: u64) -> SampleResult {
        let mut result = Proved.sample_move(motion, sample);
        self.0(sample, &mut result.sample);
        result
    }

    fn sample_third(&self, motion: Move, sample: u64) -> SampleResult {
        let mut result = Proved.sample_third(motion, sample);
        self.0(sample, &mut result.sample);
        result
    }

    fn sample_axes(&self, axes: Axes, sample: u64) -> AxesSampleResult {
        let mut result = Proved.sample_axes(axes, sample);
        result.values.iter_mut().for_each(|at| self.0(sample, at));
        result
    }
}

/// The fault is found in this field of a move's sample, in either order, and of a set's, in
/// which the count of the first axis is field 7 and that of the third 21.
fn assert_from(alone: u8, in_set: u8, spoil: fn(u64, &mut Sample)) {
    for (kind, field) in [
        ("sample", alone),
        ("third_sample", alone),
        ("axes_sample", in_set),
    ] {
        let words = format!("refusal 0, from field {field} on");
        assert_found(&Samples(spoil), kind, &words);
    }
}

/// The other count at a half, with its remainder.
fn other_way(at: &mut Sample) {
    at.count += at.remainder.signum();
    at.remainder = -at.remainder;
}

#[test]
fn a_half_count_towards_the_start() {
    assert_from(6, 7, |_, at| {
        if at.remainder.abs() == 1 << 39 {
            other_way(at);
        }
    });
}

/// It is the start from which halves go away.
#[test]
fn a_half_count_away_from_the_rails_zero() {
    assert_from(6, 21, |_, at| {
        if at.remainder.abs() == 1 << 39 && at.remainder.signum() == at.position.signum() {
            other_way(at);
        }
    });
}

/// At a half the count goes away from the start, and the remainder is the other count's.
#[test]
fn a_remainder_towards_the_start_at_a_half() {
    assert_from(7, 8, |_, at| {
        if at.remainder.abs() == 1 << 39 {
            at.remainder = -at.remainder;
        }
    });
}

#[test]
fn a_remainder_without_its_sign() {
    assert_from(7, 8, |_, at| {
        at.remainder = at.remainder.abs();
    });
}

/// What division towards zero leaves of a position, not what its count does.
#[test]
fn a_remainder_of_division() {
    assert_from(7, 8, |_, at| {
        at.remainder = at.position % (1 << 40);
    });
}

#[test]
fn a_snap_that_is_not_0() {
    let wrong = Samples(|_, at| at.snap = at.jerk);
    assert_found(&wrong, "third_sample", "refusal 0, from field 1 on");
}

/// As in fourth order.
#[test]
fn a_jerk_of_0_at_sample_0() {
    let wrong = Samples(|k, at| at.jerk *= i64::from(k > 0));
    assert_found(&wrong, "third_sample", "from field 2 on [0, 0, 0,");
}

/// At rest after the end, where a sample is refused.
struct NoEnd;

impl Entries for NoEnd {
    fn sample_move(&self, motion: Move, sample: u64) -> SampleResult {
        let mut result = Proved.sample_move(motion, sample);
        if result.refusal == 9 {
            result.refusal = 0;
        }
        result
    }
}

#[test]
fn a_sample_after_the_end() {
    assert_found(&NoEnd, "sample", "reference: refusal 9");
}
