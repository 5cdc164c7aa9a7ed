//! The proved library as `include/nitswolan.h` declares it, and its entries as
//! safe functions over slices.

mod forms;
mod layout;

pub use layout::{AxesPlanResult, AxesSampleResult, BoundSet, RouteMove};
pub use layout::{PlanResult, SampleResult, SheetResult, TableResult, ThirdPlanResult};
pub use layout::{MOST_MOVES, MOST_SETS, REPORT_BYTES};
pub use reference::force::Machine;
pub use reference::planner::{Axes, Move};

extern "C" {
    fn nitswolan_plan_move(motion: Move) -> PlanResult;
    fn nitswolan_sample_move(motion: Move, sample: u64) -> SampleResult;
    fn nitswolan_fill_positions(motion: Move, table: *mut i64, places: usize) -> TableResult;
    fn nitswolan_fill_reference(motion: Move, table: *mut i64, places: usize) -> TableResult;
    fn nitswolan_fill_force(
        motion: Move,
        machine: Machine,
        table: *mut f64,
        places: usize,
    ) -> TableResult;
    fn nitswolan_read_sheet(text: *const u8, length: usize) -> SheetResult;
    fn nitswolan_report(text: *const u8, length: usize, report: *mut u8) -> usize;
    fn nitswolan_plan_axes(axes: Axes) -> AxesPlanResult;
    fn nitswolan_sample_axes(axes: Axes, sample: u64) -> AxesSampleResult;
    fn nitswolan_plan_third(motion: Move) -> ThirdPlanResult;
    fn nitswolan_sample_third(motion: Move, sample: u64) -> SampleResult;
    fn nitswolan_fill_positions_third(motion: Move, table: *mut i64, places: usize) -> TableResult;
    fn nitswolan_fill_reference_third(motion: Move, table: *mut i64, places: usize) -> TableResult;
}

pub fn plan_move(motion: Move) -> PlanResult {
    // SAFETY: only values are passed. This holds up to `sample_third` too.
    unsafe { nitswolan_plan_move(motion) }
}

pub fn sample_move(motion: Move, sample: u64) -> SampleResult {
    unsafe { nitswolan_sample_move(motion, sample) }
}

pub fn plan_axes(axes: Axes) -> AxesPlanResult {
    unsafe { nitswolan_plan_axes(axes) }
}

pub fn sample_axes(axes: Axes, sample: u64) -> AxesSampleResult {
    unsafe { nitswolan_sample_axes(axes, sample) }
}

pub fn plan_third(motion: Move) -> ThirdPlanResult {
    unsafe { nitswolan_plan_third(motion) }
}

pub fn sample_third(motion: Move, sample: u64) -> SampleResult {
    unsafe { nitswolan_sample_third(motion, sample) }
}

pub fn fill_positions(motion: Move, table: &mut [i64]) -> TableResult {
    // SAFETY: pointer and length are those of one slice. This holds below too.
    unsafe { nitswolan_fill_positions(motion, table.as_mut_ptr(), table.len()) }
}

pub fn fill_reference(motion: Move, table: &mut [i64]) -> TableResult {
    unsafe { nitswolan_fill_reference(motion, table.as_mut_ptr(), table.len()) }
}

pub fn fill_positions_third(motion: Move, table: &mut [i64]) -> TableResult {
    unsafe { nitswolan_fill_positions_third(motion, table.as_mut_ptr(), table.len()) }
}

pub fn fill_reference_third(motion: Move, table: &mut [i64]) -> TableResult {
    unsafe { nitswolan_fill_reference_third(motion, table.as_mut_ptr(), table.len()) }
}

pub fn fill_force(motion: Move, machine: Machine, table: &mut [f64]) -> TableResult {
    unsafe { nitswolan_fill_force(motion, machine, table.as_mut_ptr(), table.len()) }
}

pub fn read_sheet(text: &[u8]) -> SheetResult {
    unsafe { nitswolan_read_sheet(text.as_ptr(), text.len()) }
}

/// The number of bytes written to the front of the buffer.
pub fn report(text: &[u8], buffer: &mut [u8; REPORT_BYTES]) -> usize {
    unsafe { nitswolan_report(text.as_ptr(), text.len(), buffer.as_mut_ptr()) }
}
