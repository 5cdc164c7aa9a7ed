use super::assert_found;
use linked::differential::{Entries, Proved};
use linked::library::{Move, PlanResult};

/// What becomes of a right plan.
struct Plans(fn(Move, &mut PlanResult));

impl Entries for Plans {
    fn plan_move(&self, motion: Move) -> PlanResult {
        let mut result = Proved.plan_move(motion);
        self.0(motion, &mut result);
        result
    }
}

/// D rounded up.
#[test]
fn a_snap_that_is_one_more() {
    let wrong = Plans(|_, result| result.plan.switched += u64::from(result.plan.shortfall > 0));
    assert_found(&wrong, "plan", "refusal 0, from field 6 on");
}

/// The intervals found before a refusal 7 are left in the answer.
#[test]
fn a_field_that_is_not_0_at_a_refusal() {
    let wrong = Plans(|_, result| result.plan.intervals[3] += u64::from(result.refusal == 7));
    assert_found(&wrong, "plan", "refusal 7, from field 5 on");
}

#[test]
fn refusal_7_before_14() {
    let wrong = Plans(|motion, result| {
        if result.refusal == 14 && Proved.plan_move(motion.starting_at(0)).refusal == 7 {
            result.refusal = 7;
        }
    });
    assert_found(&wrong, "plan", "reference: refusal 14");
}
