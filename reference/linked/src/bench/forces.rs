//! Force tables.

use super::contest::{Contest, Timed};
use super::inputs::moves_of;
use super::{agree, plain, same, Section, PLACES, SAMPLES};
use crate::library;
use reference::force::{force_table, Machine};
use reference::planner::Move;
use reference::profile::TableAnswer;
use reference::request::Request;

/// The most of the other's time that a force table may take.
const AIM: Option<f64> = Some(1.1);

// No number but k12 is 0, so that no coefficient is.
pub const RIGID: Machine = machine(0.0);
pub const FILTERED: Machine = machine(0.75);

type Table = [f64];
type Ask = (Move, Machine);

const fn machine(k12: f64) -> Machine {
    Machine {
        m1: 3.0,
        m2: 2.5,
        k1: 0.25,
        k2: 0.125,
        k12,
        c: 40.0,
    }
}

pub fn section(title: &'static str, machine: &Machine) -> Result<Section, String> {
    let mut contests = Vec::new();
    for n in SAMPLES {
        contests.push(contest(n, machine)?);
    }
    Ok(Section { title, contests })
}

fn contest(n: u64, machine: &Machine) -> Result<Box<dyn Timed>, String> {
    let with_machine = |motion| (motion, *machine);
    let asks: Vec<Ask> = moves_of(n).into_iter().map(with_machine).collect();
    for (motion, machine) in &asks {
        agree(&Request::Force(*motion, *machine, PLACES as u64))?;
        rivals_agree(motion, machine)?;
    }
    let table = vec![0.0; PLACES].into_boxed_slice();
    let contest = Contest::new(format!("N = {n}"), Some(n), asks, table)
        .archive(archive)
        .against("128-bit planner, loop", AIM, wide)
        .against("64-bit planner, loop", AIM, |(motion, machine), table| {
            plain::forces(motion, machine, table)
        });
    Ok(contest.ready())
}

fn archive((motion, machine): &Ask, table: &mut Table) -> library::TableResult {
    library::fill_force(*motion, *machine, table)
}

#[inline(never)]
fn wide((motion, machine): &Ask, table: &mut Table) -> TableAnswer {
    force_table(motion, machine, table)
}

/// The same rows in the same bits, and the same places kept.
fn rivals_agree(motion: &Move, machine: &Machine) -> Result<(), String> {
    let [first, second] = [force_table, plain::forces].map(|fill| {
        let mut table = vec![-1.0; PLACES];
        let answer = fill(motion, machine, &mut table);
        (
            answer,
            table.into_iter().map(f64::to_bits).collect::<Vec<u64>>(),
        )
    });
    same("force table", first, second)
}
