//! Libraries with one fault each: the differential test must find every one.

mod axes;
mod force;
mod plan;
mod samples;
mod sheets;
mod tables;
mod third;

use linked::differential::{run, Entries};

/// Calls of a kind; a fault must show in so few.
const CALLS: u64 = 200;

/// The first misfit of this kind of calls, if there is any.
fn first_misfit(entries: &dyn Entries, name: &str) -> Option<String> {
    let tallies = run(entries, 1, |kind| CALLS * u64::from(kind.name == name));
    tallies.flat_map(|(_, tally)| tally.printed).next()
}

/// The fault is found in this kind of calls and printed with these words.
fn assert_found(entries: &dyn Entries, name: &str, words: &str) {
    let first = first_misfit(entries, name).expect("a misfit");
    assert!(first.contains(words), "{first}");
}
