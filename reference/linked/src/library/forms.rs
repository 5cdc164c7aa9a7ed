//! Each answer as a list of all its fields, in the order of
//! `reference::request::Outcome`.

use super::layout::{AxesPlanResult, AxesSampleResult, ThirdPlanResult};
use super::layout::{PlanResult, SampleResult, SheetResult, TableResult};
use reference::planner::Plan;
use reference::profile::Sample;

impl PlanResult {
    pub fn fields(&self) -> Vec<i128> {
        let head = [self.refusal, self.samples].into_iter();
        head.chain(self.plan.numbers()).map(i128::from).collect()
    }
}

impl ThirdPlanResult {
    pub fn fields(&self) -> Vec<i128> {
        let [b, c, e] = self.intervals;
        let numbers = [
            self.refusal,
            self.samples,
            b,
            c,
            e,
            self.jerk,
            self.shortfall,
        ];
        numbers.map(i128::from).to_vec()
    }
}

impl SampleResult {
    pub fn fields(&self) -> Vec<i128> {
        let numbers = self.sample.numbers().map(i128::from);
        [self.refusal.into()].into_iter().chain(numbers).collect()
    }
}

impl TableResult {
    pub fn fields(&self) -> Vec<i128> {
        vec![self.refusal.into(), self.rows.into()]
    }
}

impl SheetResult {
    pub fn fields(&self) -> Vec<i128> {
        let head = [self.refusal, self.line, self.set_count, self.move_count];
        let mut list = head.map(i128::from).to_vec();
        for set in &self.sets {
            list.extend([set.velocity, set.acceleration, set.jerk, set.snap].map(i128::from));
        }
        for entry in &self.moves {
            list.extend([i128::from(entry.displacement), entry.set.into()]);
        }
        list
    }
}

impl AxesPlanResult {
    pub fn fields(&self) -> Vec<i128> {
        let head = [self.refusal, self.place, self.samples].into_iter();
        let plans = self.plans.iter().flat_map(Plan::numbers);
        head.chain(plans).map(i128::from).collect()
    }
}

impl AxesSampleResult {
    pub fn fields(&self) -> Vec<i128> {
        let head = [self.refusal, self.place].map(i128::from).into_iter();
        let values = self.values.iter().flat_map(Sample::numbers);
        head.chain(values.map(i128::from)).collect()
    }
}
