//! The entries that are compared with the reference.

use super::lent::Lent;
use crate::library::{self, Axes, AxesPlanResult, AxesSampleResult, Machine, Move};
use crate::library::{PlanResult, SampleResult, SheetResult, TableResult, ThirdPlanResult};

/// The published entries; a test overrides one of them with a wrong one.
///
/// Tables come with the places around them, which only a wrong entry uses.
pub trait Entries {
    fn plan_move(&self, motion: Move) -> PlanResult {
        library::plan_move(motion)
    }

    fn sample_move(&self, motion: Move, sample: u64) -> SampleResult {
        library::sample_move(motion, sample)
    }

    fn fill_positions(&self, motion: Move, table: &mut Lent<i64>) -> TableResult {
        library::fill_positions(motion, table.places())
    }

    fn fill_reference(&self, motion: Move, table: &mut Lent<i64>) -> TableResult {
        library::fill_reference(motion, table.places())
    }

    fn fill_force(&self, motion: Move, machine: Machine, table: &mut Lent<f64>) -> TableResult {
        library::fill_force(motion, machine, table.places())
    }

    fn read_sheet(&self, text: &[u8]) -> SheetResult {
        library::read_sheet(text)
    }

    fn report(&self, text: &[u8], buffer: &mut Lent<u8>) -> usize {
        let places = buffer.places().try_into();
        library::report(text, places.expect("a report's buffer has one length"))
    }

    fn plan_axes(&self, axes: Axes) -> AxesPlanResult {
        library::plan_axes(axes)
    }

    fn sample_axes(&self, axes: Axes, sample: u64) -> AxesSampleResult {
        library::sample_axes(axes, sample)
    }

    fn plan_third(&self, motion: Move) -> ThirdPlanResult {
        library::plan_third(motion)
    }

    fn sample_third(&self, motion: Move, sample: u64) -> SampleResult {
        library::sample_third(motion, sample)
    }

    fn fill_positions_third(&self, motion: Move, table: &mut Lent<i64>) -> TableResult {
        library::fill_positions_third(motion, table.places())
    }

    fn fill_reference_third(&self, motion: Move, table: &mut Lent<i64>) -> TableResult {
        library::fill_reference_third(motion, table.places())
    }
}

/// The library's own entries.
pub struct Proved;

impl Entries for Proved {}
