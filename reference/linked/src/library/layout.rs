//! The types of `include/nitswolan.h`. The numbers of a plan, or of a sample, lie one
//! after the other, whether the header names them as a struct or one by one.

use reference::planner::{Plan, MOST_AXES};
use reference::profile::Sample;

/// The bytes of a report's buffer.
pub const REPORT_BYTES: usize = 32_768;

/// The most sets and moves that a sheet lists.
pub const MOST_SETS: usize = 16;
pub const MOST_MOVES: usize = 256;

#[repr(C)]
#[derive(Clone, Copy, Debug, PartialEq, Eq)]
pub struct PlanResult {
    pub refusal: u64,
    pub samples: u64,
    pub plan: Plan,
}

#[repr(C)]
#[derive(Clone, Copy, Debug, PartialEq, Eq)]
pub struct SampleResult {
    pub refusal: u64,
    pub sample: Sample,
}

#[repr(C)]
#[derive(Clone, Copy, Debug, PartialEq, Eq)]
pub struct TableResult {
    pub refusal: u64,
    pub rows: u64,
}

#[repr(C)]
#[derive(Clone, Copy, Debug, PartialEq, Eq)]
pub struct BoundSet {
    pub velocity: u64,
    pub acceleration: u64,
    pub jerk: u64,
    pub snap: u64,
}

#[repr(C)]
#[derive(Clone, Copy, Debug, PartialEq, Eq)]
pub struct RouteMove {
    pub displacement: i64,
    pub set: u64,
}

#[repr(C)]
#[derive(Clone, Copy, Debug, PartialEq, Eq)]
pub struct SheetResult {
    pub refusal: u64,
    pub line: u64,
    pub set_count: u64,
    pub move_count: u64,
    pub sets: [BoundSet; MOST_SETS],
    pub moves: [RouteMove; MOST_MOVES],
}

#[repr(C)]
#[derive(Clone, Copy, Debug, PartialEq, Eq)]
pub struct AxesPlanResult {
    pub refusal: u64,
    pub place: u64,
    pub samples: u64,
    pub plans: [Plan; MOST_AXES],
}

#[repr(C)]
#[derive(Clone, Copy, Debug, PartialEq, Eq)]
pub struct AxesSampleResult {
    pub refusal: u64,
    pub place: u64,
    pub values: [Sample; MOST_AXES],
}

#[repr(C)]
#[derive(Clone, Copy, Debug, PartialEq, Eq)]
pub struct ThirdPlanResult {
    pub refusal: u64,
    pub samples: u64,
    pub intervals: [u64; 3],
    pub jerk: u64,
    pub shortfall: u64,
}
