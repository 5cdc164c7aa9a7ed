use super::assert_found;
use linked::differential::{Entries, Proved};
use linked::library::{Move, ThirdPlanResult};

/// What becomes of a right plan; samples and tables are with those of fourth order.
struct Plans(fn(Move, &mut ThirdPlanResult));

impl Entries for Plans {
    fn plan_third(&self, motion: Move) -> ThirdPlanResult {
        let mut result = Proved.plan_third(motion);
        self.0(motion, &mut result);
        result
    }
}

#[test]
fn a_shortfall_that_is_left_out() {
    let wrong = Plans(|_, result| result.shortfall = 0);
    assert_found(&wrong, "third_plan", "refusal 0, from field 6 on");
}

#[test]
fn a_snap_bound_that_is_read() {
    let wrong = Plans(|motion, result| {
        if result.refusal == 0 && motion.snap == (1 << 50) + 1 {
            result.refusal = 6;
        }
    });
    assert_found(&wrong, "third_plan", "library: refusal 6");
}

#[test]
fn refusal_7_before_14() {
    let wrong = Plans(|motion, result| {
        if result.refusal == 14 && Proved.plan_third(motion.starting_at(0)).refusal == 7 {
            result.refusal = 7;
        }
    });
    assert_found(&wrong, "third_plan", "reference: refusal 14");
}
