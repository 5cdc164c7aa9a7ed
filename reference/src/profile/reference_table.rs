//! The table of reference rows for the feedback loop (document 02, requests 4, 7).

use super::{Profile, TableAnswer, MORE_ROWS};
use crate::planner::{Move, Order};

/// Writes the reference rows 0 to N+1 and keeps every later place, or writes
/// nothing and refuses.
pub fn reference_table(order: Order, motion: &Move, table: &mut [i64]) -> TableAnswer {
    let profile = match Profile::fitting(order, motion, table.len(), MORE_ROWS) {
        Ok(profile) => profile,
        Err(number) => return TableAnswer::Refused(number),
    };
    let rows = profile.samples + MORE_ROWS;
    let mut positions = profile.states().map(|(_, state)| state.position);
    // The position before sample 0 is the start's.
    let mut before = profile.first_position();
    for row in &mut table[..rows as usize] {
        // After sample N the last position is held.
        let here = positions.next().unwrap_or(before);
        // Half a sample late is the mean of two; doubled it is whole, and 2^61 at most.
        *row = here + before;
        before = here;
    }
    TableAnswer::Written(rows)
}
