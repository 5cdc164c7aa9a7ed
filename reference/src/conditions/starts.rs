//! What the requests must contain about starts and ends (document 02, request 7).

use super::{accepted, row, Case, Table};
use crate::draw::starts::SPAN_EDGES;
use crate::planner::Order;

/// Both directions, from 0 and across it; 14 beside 7.
pub fn moves() -> Table {
    let mut table = vec![row("14 and 7", |case| {
        case.refusal() == 14 && case.n() > 4_096
    })];
    for sign in [1, -1] {
        for start in [0, -sign] {
            let signs = move |case: &Case| case.ends().map(i128::signum) == [start, sign];
            table.push(accepted(format!("from {start} to {sign}, in sign"), signs));
        }
    }
    table
}

/// Each edge of the span, at the start and at the end; an end that does not fit 64 bits; and
/// what comes before 14: the last bound that is read, and 2 at such an end.
pub fn edges(order: Order) -> Table {
    let mut table = Table::new();
    for (edge, refusal) in SPAN_EDGES {
        for (place, name) in ["start", "end"].into_iter().enumerate() {
            // The other one is no farther out, so that it does not decide.
            let at = move |case: &Case| {
                let [here, other] = [place, 1 - place].map(|place| case.ends()[place]);
                here == edge.into() && other.abs() <= here.abs() && case.refusal() == refusal
            };
            table.push(row(format!("{name} = {edge}"), at));
        }
    }
    let last = 2 + order as i128;
    for (number, bits) in [(last, 20), (2, 63), (14, 63)] {
        let beyond = move |case: &Case| case.ends()[1].abs() > 1 << bits;
        let both = move |case: &Case| case.refusal() == number && beyond(case);
        table.push(row(format!("{number}, the end beyond 2^{bits}"), both));
    }
    table
}

/// The first and the last row as large as they can be; an end that is short of the count
/// asked for, where twice the position that is held is not twice that count.
pub fn outer_rows() -> Table {
    let last = |case: &Case| case.outcome.rows.last().map_or(0, |row| *row as i64);
    let farthest = |place: usize| move |case: &Case| case.ends()[place].abs() == 1 << 20;
    let asked = |case: &Case| (case.ends()[1] as i64) << 41;
    vec![
        accepted("the farthest start", farthest(0)),
        accepted("the farthest end", farthest(1)),
        accepted("short of the end", move |case| last(case) != asked(case)),
    ]
}
