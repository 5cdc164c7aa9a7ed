//! Route sheets: reading, and the report with a plan for each move.

use super::contest::{Contest, Timed};
use super::inputs::planned_mix;
use super::{agree, plain, same, Section};
use crate::library::{self, REPORT_BYTES};
use reference::planner::Move;
use reference::request::Request;
use reference::sheet::{read, render, report, Sheet, SheetMove, SheetRefusal};

/// How many sheets a pass has.
const SHEETS: usize = 4;

/// The sets of the longer sheets.
const SETS: usize = 16;

type Text = Vec<u8>;

pub fn section() -> Result<Section, String> {
    let mut contests = Vec::new();
    for moves in [1, 256] {
        for text in texts(moves) {
            agree(&Request::Sheet(text.clone()))?;
            rivals_agree(&text)?;
        }
        contests.extend([reading(moves), reporting(moves)]);
    }
    Ok(Section {
        title: "Sheet",
        contests,
    })
}

fn reading(moves: usize) -> Box<dyn Timed> {
    Contest::new(format!("reading {moves}"), None, texts(moves), Box::new(()))
        .archive(|text, _| library::read_sheet(text))
        .against("reference", None, |text, _| read_whole(text))
        .against("one pass", None, |text, _| plain::sheet::read(text))
        .ready()
}

fn reporting(moves: usize) -> Box<dyn Timed> {
    let aim = (moves == 256).then_some(1.0);
    let buffer = Box::new([0; REPORT_BYTES]);
    Contest::new(format!("report of {moves}"), None, texts(moves), buffer)
        .archive(|text, buffer| library::report(text, buffer))
        .against("reference, 128-bit planner", aim, |text, _| reported(text))
        .against("one pass, 64-bit planner", aim, |text, buffer| {
            plain::sheet::report(text, buffer)
        })
        .ready()
}

#[inline(never)]
fn read_whole(text: &Text) -> Result<Sheet, SheetRefusal> {
    read(text)
}

#[inline(never)]
fn reported(text: &Text) -> Vec<u8> {
    report(text)
}

/// Sheets of this many moves, nearly all planned.
fn texts(moves: usize) -> Vec<Text> {
    let planned = planned_mix();
    let part = |k| &planned[k * SETS..(k + 1) * SETS];
    (0..SHEETS)
        .map(|k| render(&sheet(part(k), moves)))
        .collect()
}

/// Each base gives a set; moves go a part of its way, which takes no longer.
fn sheet(bases: &[Move], moves: usize) -> Sheet {
    let sets = &bases[..moves.min(SETS)];
    let a_move = |k: usize| SheetMove {
        displacement: bases[k % SETS].displacement / (1 + k / SETS) as i64,
        set: (k % SETS) as u64 + 1,
    };
    Sheet {
        sets: sets.iter().map(Move::bounds).collect(),
        moves: (0..moves).map(a_move).collect(),
    }
}

fn rivals_agree(text: &Text) -> Result<(), String> {
    let mut buffer = [0; REPORT_BYTES];
    let length = plain::sheet::report(text, &mut buffer);
    same("report", &buffer[..length], &report(text)[..])?;
    same("sheet", plain::sheet::read(text), read(text).ok())
}
