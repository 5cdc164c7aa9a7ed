//! Planning alone.

use super::contest::{Contest, Timed};
use super::inputs::{planned_mix, whole_mix};
use super::plain::plan_narrow;
use super::{agree, same, Section};
use crate::library;
use reference::planner::Order::Fourth;
use reference::planner::{plan, Answer, Move};
use reference::request::Request;

pub fn section() -> Result<Section, String> {
    let contests = vec![
        mix("planned moves", planned_mix())?,
        mix("moves, planned and refused", whole_mix())?,
    ];
    Ok(Section {
        title: "Plan",
        contests,
    })
}

fn mix(kind: &str, moves: Vec<Move>) -> Result<Box<dyn Timed>, String> {
    for motion in &moves {
        agree(&Request::Plan(Fourth, *motion))?;
        same("plan", plan(Fourth, motion), plan_narrow(motion))?;
    }
    let what = format!("{} {kind}", moves.len());
    let contest = Contest::new(what, None, moves, Box::new(()))
        .archive(|motion, _| library::plan_move(*motion))
        .against("128-bit planner", Some(0.5), |motion, _| wide(motion))
        .against("64-bit planner", None, |motion, _| narrow(motion));
    Ok(contest.ready())
}

// Never inlined, as the archive cannot be.
#[inline(never)]
fn wide(motion: &Move) -> Answer {
    plan(Fourth, motion)
}

#[inline(never)]
fn narrow(motion: &Move) -> Answer {
    plan_narrow(motion)
}
