//! Plans and tables of third order, against those of fourth order.

use super::contest::{Contest, Timed};
use super::inputs::{pairs_of, planned_mix};
use super::tables::{Entry, REFERENCE_AIM};
use super::{agree, Section, PLACES, SAMPLES};
use crate::library;
use reference::planner::Order::{Fourth, Third};
use reference::planner::{plan, Move};
use reference::request::Request;

/// The parts of the other's time that a plan and a table may take.
const PLAN_AIM: Option<f64> = Some(0.8);
const TABLE_AIM: Option<f64> = Some(1.03);

pub fn section() -> Result<Section, String> {
    let mut contests = vec![planned()?];
    for n in SAMPLES {
        let (third, fourth) = (library::fill_positions_third, library::fill_positions);
        contests.push(filled("positions", n, third, fourth)?.ready());
    }
    for n in SAMPLES {
        let (third, fourth) = (library::fill_reference_third, library::fill_reference);
        let contest = filled("reference", n, third, fourth)?;
        let contest = contest.against("position table", REFERENCE_AIM, |[_, motion], table| {
            library::fill_positions_third(*motion, table)
        });
        contests.push(contest.ready());
    }
    Ok(Section {
        title: "Third order",
        contests,
    })
}

/// The same moves, which both orders accept.
fn planned() -> Result<Box<dyn Timed>, String> {
    let mut moves = planned_mix();
    moves.retain(|motion| plan(Third, motion).samples().is_some());
    for motion in &moves {
        agree(&Request::Plan(Fourth, *motion))?;
        agree(&Request::Plan(Third, *motion))?;
    }
    let what = format!("{} planned moves", moves.len());
    let contest = Contest::new(what, None, moves, Box::new(()))
        .archive(|motion, _| library::plan_third(*motion))
        .against("fourth order", PLAN_AIM, |motion, _| {
            library::plan_move(*motion)
        });
    Ok(contest.ready())
}

/// Moves of as many samples in either order.
fn filled(
    what: &str,
    n: u64,
    third: impl Entry,
    fourth: impl Entry,
) -> Result<Contest<[Move; 2], [i64]>, String> {
    let pairs = pairs_of(n);
    for (order, motion) in pairs.iter().flat_map(|[f, t]| [(Fourth, f), (Third, t)]) {
        agree(&Request::Positions(order, *motion, PLACES as u64))?;
        agree(&Request::Reference(order, *motion, PLACES as u64))?;
    }
    let places = vec![0; PLACES].into_boxed_slice();
    let contest = Contest::new(format!("{what}, N = {n}"), Some(n), pairs, places)
        .archive(move |[_, motion], table| third(*motion, table))
        .against("fourth order", TABLE_AIM, move |[motion, _], table| {
            fourth(*motion, table)
        });
    Ok(contest)
}
