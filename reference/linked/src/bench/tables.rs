//! Position and reference tables.

use super::contest::{Contest, Timed};
use super::inputs::moves_of;
use super::{agree, plain, same, Section, PLACES, SAMPLES};
use crate::library::{self, TableResult};
use reference::planner::{plan, Move, Order::Fourth};
use reference::profile::{position_table, reference_table, TableAnswer};
use reference::request::Request;

/// The parts that a table may take of a loop's time, and the reference table of the
/// position table's.
const AIM: Option<f64> = Some(1.0);
pub const REFERENCE_AIM: Option<f64> = Some(1.05);

type Table = [i64];
type Rival = fn(&Move, &mut Table) -> TableAnswer;

/// A filling entry of the archive, called directly.
pub trait Entry: Fn(library::Move, &mut Table) -> TableResult + Copy + 'static {}
impl<T: Fn(library::Move, &mut Table) -> TableResult + Copy + 'static> Entry for T {}

pub fn positions() -> Result<Section, String> {
    section("Position table", |n| {
        let contest = contest(n, library::fill_positions, &[wide, plain::positions])?
            .against("128-bit planner, loop", AIM, wide)
            .against("64-bit planner, loop", AIM, plain::positions);
        Ok(contest.ready())
    })
}

pub fn references() -> Result<Section, String> {
    section("Reference table", |n| {
        let rivals = [iterated, wide_references, narrow_references];
        let contest = contest(n, library::fill_reference, &rivals)?
            .against("position table", REFERENCE_AIM, |motion, table| {
                library::fill_positions(*motion, table)
            })
            .against("128-bit planner, loop", AIM, wide_references)
            .against("64-bit planner, loop", AIM, narrow_references)
            .against("128-bit planner, iterator", None, iterated);
        Ok(contest.ready())
    })
}

fn section(
    title: &'static str,
    contest: fn(u64) -> Result<Box<dyn Timed>, String>,
) -> Result<Section, String> {
    let contests: Result<_, String> = SAMPLES.into_iter().map(contest).collect();
    contests.map(|contests| Section { title, contests })
}

fn contest(n: u64, entry: impl Entry, rivals: &[Rival]) -> Result<Contest<Move, Table>, String> {
    let moves = moves_of(n);
    for motion in &moves {
        agree(&Request::Positions(Fourth, *motion, PLACES as u64))?;
        agree(&Request::Reference(Fourth, *motion, PLACES as u64))?;
        rivals_agree(motion, rivals)?;
    }
    let table = vec![0; PLACES].into_boxed_slice();
    let contest = Contest::new(format!("N = {n}"), Some(n), moves, table);
    Ok(contest.archive(move |motion, table| entry(*motion, table)))
}

fn rivals_agree(motion: &Move, rivals: &[Rival]) -> Result<(), String> {
    let filled = |fill: &Rival| {
        let mut table = vec![-1; PLACES];
        (fill(motion, &mut table), table)
    };
    let mut pairs = rivals.windows(2);
    pairs.try_for_each(|pair| same("table", filled(&pair[0]), filled(&pair[1])))
}

#[inline(never)]
fn wide(motion: &Move, table: &mut Table) -> TableAnswer {
    position_table(Fourth, motion, table)
}

#[inline(never)]
fn iterated(motion: &Move, table: &mut Table) -> TableAnswer {
    reference_table(Fourth, motion, table)
}

#[inline(never)]
fn wide_references(motion: &Move, table: &mut Table) -> TableAnswer {
    plain::references(plan(Fourth, motion), motion, table)
}

#[inline(never)]
fn narrow_references(motion: &Move, table: &mut Table) -> TableAnswer {
    plain::references(plain::plan_narrow(motion), motion, table)
}
