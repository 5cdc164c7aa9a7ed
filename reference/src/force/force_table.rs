//! The table of forces.

use super::{Coefficients, Doubled, Drive, Machine};
use crate::planner::{Move, Order};
use crate::profile::{Profile, Segment, TableAnswer, MORE_ROWS};
use std::iter;

/// Row k has the snap of sample k-2: two rows come before that of sample 0.
const BEFORE: Segment = Segment {
    samples: 2,
    switched: 0,
};

/// Writes the forces of rows 0 to N+1 and keeps every later place, or writes
/// nothing and refuses.
pub fn force_table(motion: &Move, machine: &Machine, table: &mut [f64]) -> TableAnswer {
    let (profile, machine) = match accepted(motion, machine, table.len()) {
        Ok(both) => both,
        Err(number) => return TableAnswer::Refused(number),
    };
    let (q, drive) = (Coefficients::of(&machine), Drive::of(&machine));
    write_rows(&profile, &q, drive, table);
    TableAnswer::Written(profile.samples + MORE_ROWS)
}

/// Writes the rows for these factors and this drive.
pub fn write_rows(profile: &Profile, q: &Coefficients, drive: Drive, table: &mut [f64]) {
    match drive {
        Drive::Rigid { c } => fill(profile, q, table, |u| u / c),
        Drive::Filtered { alpha, beta } => {
            let (mut y_before, mut u_before) = (0.0, 0.0);
            fill(profile, q, table, |u| {
                y_before = alpha * y_before + beta * (u + u_before);
                u_before = u;
                y_before
            });
        }
    }
}

/// The profile and the machine as it is read, or the first refusal.
fn accepted(motion: &Move, machine: &Machine, places: usize) -> Result<(Profile, Machine), u8> {
    let profile = Profile::fitting(Order::Fourth, motion, places, MORE_ROWS)?;
    let machine = machine.checked().ok_or(10)?;
    Ok((profile, machine))
}

/// Fills the table one segment after the other; `force` is what the drive makes
/// of u, row after row.
///
/// The additions wrap for the same reason as in the table of positions.
fn fill(profile: &Profile, q: &Coefficients, table: &mut [f64], mut force: impl FnMut(f64) -> f64) {
    // At row k: the jerk of sample k-2, and both others of sample k-1. The sums
    // hold before sample 0 and after N too, where all of these are 0.
    let (mut jerk, mut acceleration, mut velocity) = (0_i64, 0_i64, 0_i64);
    let mut rest = table;
    for segment in iter::once(&BEFORE).chain(&profile.segments) {
        let (rows, after) = rest.split_at_mut(segment.samples);
        let d2 = 2 * segment.switched;
        for row in rows {
            let next_jerk = jerk.wrapping_add(segment.switched);
            let next_velocity = velocity.wrapping_add(acceleration);
            *row = force(q.u(Doubled {
                d2,
                j2: next_jerk.wrapping_add(jerk),
                a2: acceleration.wrapping_add(acceleration),
                v2: next_velocity.wrapping_add(velocity),
            }));
            acceleration = acceleration.wrapping_add(next_jerk);
            jerk = next_jerk;
            velocity = next_velocity;
        }
        rest = after;
    }
}
