//! Forces of a rigid or a filtered drive.

use super::{plan_narrow, planned};
use reference::force::{Coefficients, Drive, Machine};
use reference::planner::Move;
use reference::profile::{Segment, TableAnswer};

#[inline(never)]
pub fn forces(motion: &Move, machine: &Machine, table: &mut [f64]) -> TableAnswer {
    let plan = match planned(plan_narrow(motion), motion, table.len(), 2) {
        Ok(plan) => plan,
        Err(number) => return TableAnswer::Refused(number),
    };
    let Some(machine) = machine.checked() else {
        return TableAnswer::Refused(10);
    };
    let q = Coefficients::of(&machine);
    match Drive::of(&machine) {
        Drive::Rigid { c } => fill(&plan.segments, &q, table, |u| u / c),
        Drive::Filtered { alpha, beta } => {
            let (mut y, mut u_before) = (0.0, 0.0);
            fill(&plan.segments, &q, table, |u| {
                y = alpha * y + beta * (u + u_before);
                u_before = u;
                y
            });
        }
    }
    TableAnswer::Written(plan.rows)
}

/// Row k has the snap of sample k-2, so two rows come first in which all is 0.
fn fill(
    segments: &[Segment],
    q: &Coefficients,
    table: &mut [f64],
    mut force: impl FnMut(f64) -> f64,
) {
    let before = Segment {
        samples: 2,
        switched: 0,
    };
    let (mut jerk, mut acceleration, mut velocity) = (0, 0, 0);
    let mut rest = table;
    for segment in [&before].into_iter().chain(segments) {
        let (places, after) = rest.split_at_mut(segment.samples);
        for place in places {
            let (next_jerk, next_velocity) = (jerk + segment.switched, velocity + acceleration);
            let (j2, v2) = (next_jerk + jerk, next_velocity + velocity);
            let [d2, j2, a2, v2] =
                [2 * segment.switched, j2, 2 * acceleration, v2].map(|x| x as f64);
            *place = force((q.q1 * d2 + q.q2 * j2 + q.q3 * a2 + q.q4 * v2) * 0.5);
            acceleration += next_jerk;
            jerk = next_jerk;
            velocity = next_velocity;
        }
        rest = after;
    }
}
