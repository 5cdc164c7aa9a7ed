//! Tables and reports as a Rust programmer would write them who needs them fast:
//! the 64-bit planner, then a loop for each segment, or the words and digits of
//! each line straight into the buffer.

mod forces;
mod narrow;
mod output;
mod positions;
pub mod sheet;

pub use forces::forces;
pub use narrow::plan_narrow;
pub use positions::{positions, references};

use reference::planner::{durations, Answer, Move, Order};
use reference::profile::{segments, Segment, SEGMENT_COUNT};

/// What the rows are made of.
struct Plan {
    segments: [Segment; SEGMENT_COUNT],
    rows: u64,
}

/// What a planner's answer leads to for N and `more` rows, if the table has room for
/// them; otherwise the refusal.
fn planned(answer: Answer, motion: &Move, places: usize, more: u64) -> Result<Plan, u8> {
    let plan = match answer {
        Answer::Refused(number) => return Err(number),
        Answer::Planned(plan) => plan,
    };
    let rows = plan.samples() + more;
    if (places as u64) < rows {
        return Err(8);
    }
    let snap = plan.switched as i64 * motion.displacement.signum();
    let segments = segments(Order::Fourth, durations(plan.intervals), snap);
    Ok(Plan { segments, rows })
}
