//! What the requests of third order must contain beside that of both orders.

use super::{accepted, row, Case, Condition, Table};
use crate::draw::moves::BOUND_EDGES;
use crate::planner::Intervals;

/// Every edge of S, which is not read, and 7 beside one; the fewest samples; the
/// segments of constant acceleration and of constant velocity with samples and without.
pub fn moves() -> Table {
    let mut table = vec![
        row("7 and S = 0", |case| {
            case.refusal() == 7 && case.bounds()[3] == 0
        }),
        accepted("N = 4", |case| case.n() == 4),
    ];
    for (edge, _) in BOUND_EDGES {
        let unread = move |case: &Case| case.bounds()[3] == edge;
        table.push(accepted(format!("S = {edge}"), unread));
    }
    let combinations = [[false, false], [false, true], [true, false], [true, true]];
    table.extend(combinations.map(segments));
    table
}

fn segments(have_samples: [bool; 2]) -> Condition {
    let have = move |found: Intervals| [found.c > found.b, found.e > found.b + found.c];
    accepted(
        format!("c > b and e > b+c: {have_samples:?}"),
        move |case| case.found().map(have) == Some(have_samples),
    )
}
