//! The table of positions.

use super::{Profile, TableAnswer};
use crate::planner::{Move, Order};

/// Writes the positions at samples 0 to N and keeps every later place, or
/// writes nothing and refuses.
pub fn position_table(order: Order, motion: &Move, table: &mut [i64]) -> TableAnswer {
    let profile = match Profile::fitting(order, motion, table.len(), 1) {
        Ok(profile) => profile,
        Err(number) => return TableAnswer::Refused(number),
    };
    fill(&profile, table);
    TableAnswer::Written(profile.samples + 1)
}

/// Fills the table one segment after the other, four additions a sample.
///
/// No sum passes 64 bits (see `State`). The additions are the wrapping ones so
/// that the loop is as fast as in a build without overflow checks: other
/// programs are timed against it.
fn fill(profile: &Profile, table: &mut [i64]) {
    let (mut jerk, mut acceleration, mut velocity) = (0_i64, 0_i64, 0_i64);
    let mut position = profile.first_position();
    let mut rest = table;
    for segment in &profile.segments {
        let (rows, after) = rest.split_at_mut(segment.samples);
        let [snap, first] = profile.order.highest(segment.switched, jerk);
        jerk = first;
        for row in rows {
            *row = position;
            // From the position up: each grows by a derivative not yet changed.
            position = position.wrapping_add(velocity);
            velocity = velocity.wrapping_add(acceleration);
            acceleration = acceleration.wrapping_add(jerk);
            jerk = jerk.wrapping_add(snap);
        }
        rest = after;
    }
    // The segments end at sample N-1; the last row is where they have led.
    rest[0] = position;
}
