use super::assert_found;
use linked::differential::{Entries, Proved};
use linked::library::{Axes, AxesPlanResult, AxesSampleResult};

/// What becomes of right plans, and of right samples.
struct Plans(fn(Axes, &mut AxesPlanResult));
struct Samples(fn(Axes, u64, &mut AxesSampleResult));

impl Entries for Plans {
    fn plan_axes(&self, axes: Axes) -> AxesPlanResult {
        let mut result = Proved.plan_axes(axes);
        self.0(axes, &mut result);
        result
    }
}

impl Entries for Samples {
    fn sample_axes(&self, axes: Axes, sample: u64) -> AxesSampleResult {
        let mut result = Proved.sample_axes(axes, sample);
        self.0(axes, sample, &mut result);
        result
    }
}

/// Places counted from 0.
#[test]
fn a_place_that_is_one_less() {
    let wrong = Plans(|_, result| result.place = result.place.saturating_sub(1));
    assert_found(&wrong, "axes", "from field 1 on");
}

/// The largest N of all eight moves, where none of them is refused.
#[test]
fn a_common_duration_of_later_moves() {
    let wrong = Plans(|axes, result| {
        let all = Proved.plan_axes(Axes { count: 8, ..axes });
        if result.refusal == 0 {
            result.samples = result.samples.max(all.samples);
        }
    });
    assert_found(&wrong, "axes", "refusal 0, from field 2 on");
}

/// A count of 1 in the last place, where there is no axis.
#[test]
fn an_unused_place_that_is_not_0() {
    let wrong = Samples(|axes, _, result| result.values[7].count += i64::from(axes.count < 8));
    assert_found(&wrong, "axes_sample", "from field 56 on [1, 0]");
}

/// At rest an axis is not asked for its start.
#[test]
fn a_rest_outside_the_span() {
    let wrong = Plans(|mut axes, result| {
        let at_rest = axes.moves.iter_mut().filter(|axis| axis.displacement == 0);
        at_rest.for_each(|axis| axis.start = 0);
        *result = Proved.plan_axes(axes);
    });
    assert_found(&wrong, "axes", "reference: refusal 14");
}

#[test]
fn a_rest_at_zero() {
    let wrong = Samples(|axes, _, result| {
        let places = axes.moves.iter().zip(&mut result.values);
        let at_rest = places.filter(|(axis, _)| axis.displacement == 0);
        at_rest.for_each(|(_, at)| (at.position, at.count) = (0, 0));
    });
    assert_found(&wrong, "axes_sample", "refusal 0, from field 6 on [0, 0,");
}

/// 9 after the end that the first axis has by itself.
#[test]
fn an_end_that_is_not_the_common_one() {
    let wrong = Samples(|axes, k, result| {
        let own = Proved.plan_move(axes.moves[0]);
        if result.refusal == 0 && own.refusal == 0 && k > own.samples {
            result.refusal = 9;
        }
    });
    assert_found(&wrong, "axes_sample", "library: refusal 9");
}
