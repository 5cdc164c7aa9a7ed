//! The archive timed against plain Rust.
//!
//! Each contest runs the archive and what it is held against in turn, in one
//! process, on the same inputs and memory, after all gave the same answers.

mod axes;
mod contest;
mod figures;
mod forces;
mod inputs;
mod markdown;
mod plain;
mod plans;
mod samples;
mod sheets;
mod tables;
mod third;

use crate::differential::{misfit, Proved};
use contest::Timed;
use reference::request::Request;

/// The batches of each side.
const REPEATS: usize = 101;

/// The samples of the moves in tables (N). They show how time grows.
const SAMPLES: [u64; 6] = [8, 16, 64, 256, 1024, 4096];

/// The places of a table: enough for every move.
const PLACES: usize = 4098;

/// A heading and what is timed under it.
struct Section {
    title: &'static str,
    contests: Vec<Box<dyn Timed>>,
}

/// The whole benchmark as Markdown, or where the answers differ.
pub fn run() -> Result<String, String> {
    let mut sections = sections()?;
    // Each contest's batches are spread over the whole run: a disturbance of some
    // seconds then takes a few batches from all, not all from one.
    for round in 0..REPEATS {
        for contest in sections
            .iter_mut()
            .flat_map(|section| &mut section.contests)
        {
            contest.round(round);
        }
    }
    let tables: String = sections.iter().map(markdown::section).collect();
    Ok(markdown::preface(REPEATS) + &tables)
}

fn sections() -> Result<[Section; 9], String> {
    Ok([
        plans::section()?,
        samples::section()?,
        tables::positions()?,
        tables::references()?,
        forces::section("Force table, rigid drive", &forces::RIGID)?,
        forces::section("Force table, filtered drive", &forces::FILTERED)?,
        sheets::section()?,
        axes::section()?,
        third::section()?,
    ])
}

/// An error unless the archive answers as the reference does.
fn agree(request: &Request) -> Result<(), String> {
    let misfit = misfit(&Proved, request, &request.expected());
    misfit.map_or(Ok(()), |words| Err(format!("{request:?}\n{words}")))
}

/// An error unless two sides gave the same for an input.
fn same<T: PartialEq>(what: &str, one: T, other: T) -> Result<(), String> {
    if one == other {
        return Ok(());
    }
    Err(format!("{what}: the answers differ, nothing was timed"))
}
