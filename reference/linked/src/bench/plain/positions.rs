//! Positions, and reference rows.

use super::{plan_narrow, planned, Plan};
use reference::planner::{Answer, Move};
use reference::profile::TableAnswer;

#[inline(never)]
pub fn positions(motion: &Move, table: &mut [i64]) -> TableAnswer {
    let plan = planned(plan_narrow(motion), motion, table.len(), 1);
    filled(plan, motion.start << 40, table, |position| position)
}

/// By the answer of either planner. Each row adds the position before.
pub fn references(answer: Answer, motion: &Move, table: &mut [i64]) -> TableAnswer {
    let start = motion.start << 40;
    let mut before = start;
    let plan = planned(answer, motion, table.len(), 2);
    filled(plan, start, table, |position| {
        let row = position + before;
        before = position;
        row
    })
}

fn filled(
    plan: Result<Plan, u8>,
    start: i64,
    table: &mut [i64],
    mut row: impl FnMut(i64) -> i64,
) -> TableAnswer {
    let plan = match plan {
        Ok(plan) => plan,
        Err(number) => return TableAnswer::Refused(number),
    };
    let (mut jerk, mut acceleration, mut velocity, mut position) = (0, 0, 0, start);
    let mut rest = &mut table[..plan.rows as usize];
    for segment in &plan.segments {
        let (places, after) = rest.split_at_mut(segment.samples);
        for place in places {
            *place = row(position);
            position += velocity;
            velocity += acceleration;
            acceleration += jerk;
            jerk += segment.switched;
        }
        rest = after;
    }
    // The segments end at sample N-1; the rows that are left hold where they have led.
    rest.fill_with(|| row(position));
    TableAnswer::Written(plan.rows)
}
