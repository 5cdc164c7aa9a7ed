//! One call of the library, held against what the reference says: every field of
//! the answer, and every place of the table and around it.

use super::entries::Entries;
use super::lent::{Lent, Place};
use crate::library::{TableResult, REPORT_BYTES};
use reference::planner::Order::{Fourth, Third};
use reference::request::{Outcome, Request};
use std::fmt::Display;

/// Stands behind every text: with more of it than was lent, a text that ends
/// too early could be a sheet.
const BEHIND: &[u8] = b"\n1\n1 1\n";

/// Makes the call and says what differs.
pub fn misfit(entries: &dyn Entries, request: &Request, wanted: &Outcome) -> Option<String> {
    match request {
        Request::Plan(Fourth, motion) => fields(entries.plan_move(*motion).fields(), wanted),
        Request::Plan(Third, motion) => fields(entries.plan_third(*motion).fields(), wanted),
        Request::Sample(order, motion, k) => {
            let given = match order {
                Fourth => entries.sample_move(*motion, *k),
                Third => entries.sample_third(*motion, *k),
            };
            fields(given.fields(), wanted)
        }
        Request::Positions(order, motion, places) => table(*places, wanted, |lent| match order {
            Fourth => entries.fill_positions(*motion, lent),
            Third => entries.fill_positions_third(*motion, lent),
        }),
        Request::Reference(order, motion, places) => table(*places, wanted, |lent| match order {
            Fourth => entries.fill_reference(*motion, lent),
            Third => entries.fill_reference_third(*motion, lent),
        }),
        Request::Force(motion, machine, places) => table(*places, wanted, |lent| {
            entries.fill_force(*motion, *machine, lent)
        }),
        Request::Sheet(text) => {
            let longer = [text, BEHIND].concat();
            let text = &longer[..text.len()];
            let given = entries.read_sheet(text).fields();
            fields(given, wanted).or_else(|| report(entries, text, &wanted.rows))
        }
        Request::PlanAxes(axes) => fields(entries.plan_axes(*axes).fields(), wanted),
        Request::SampleAxes(axes, k) => fields(entries.sample_axes(*axes, *k).fields(), wanted),
    }
}

/// The answer, and every place of the table and around it.
fn table<T: Place>(
    places: u64,
    wanted: &Outcome,
    fill: impl FnOnce(&mut Lent<T>) -> TableResult,
) -> Option<String> {
    let mut lent = Lent::of(places as usize);
    let given = fill(&mut lent).fields();
    fields(given, wanted).or_else(|| lent.difference(&wanted.rows))
}

/// The first field that differs, and a few that follow.
fn fields(given: Vec<i128>, wanted: &Outcome) -> Option<String> {
    let wanted = &wanted.fields[..];
    if given == wanted {
        return None;
    }
    let first = given.iter().zip(wanted).take_while(|(g, w)| g == w).count();
    let shown = |list: &[i128]| {
        let rest: Vec<&i128> = list[first..].iter().take(4).collect();
        format!("refusal {}, from field {first} on {rest:?}", list[0])
    };
    Some(both(shown(&given), shown(wanted)))
}

/// The number of bytes, the bytes, and all later ones, which keep their marks.
fn report(entries: &dyn Entries, text: &[u8], wanted: &[u64]) -> Option<String> {
    let mut buffer = Lent::<u8>::of(REPORT_BYTES);
    let count = entries.report(text, &mut buffer);
    if count != wanted.len() {
        let shown = |count: usize| format!("a report of {count} bytes");
        return Some(both(shown(count), shown(wanted.len())));
    }
    buffer.difference(wanted)
}

/// How two answers are printed.
pub fn both(given: impl Display, wanted: impl Display) -> String {
    format!("library: {given}\nreference: {wanted}")
}
