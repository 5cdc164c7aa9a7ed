//! What `bottlerun` prints about a sheet.

use super::{read, Sheet, SheetRefusal};
use crate::planner::{durations, plan, Answer, Move, Order};

/// A line for each move, or a single line for a bad sheet.
pub fn report(text: &[u8]) -> Vec<u8> {
    let lines = match read(text) {
        Ok(sheet) => move_lines(&sheet),
        Err(SheetRefusal::Malformed { line }) => format!("sheet refused 11 line {line}\n"),
        Err(SheetRefusal::TooLong) => "sheet refused 12\n".into(),
    };
    lines.into_bytes()
}

fn move_lines(sheet: &Sheet) -> String {
    let numbered = (1..).zip(sheet.motions());
    numbered
        .map(|(number, motion)| move_line(number, &motion))
        .collect()
}

fn move_line(number: usize, motion: &Move) -> String {
    match plan(Order::Fourth, motion) {
        Answer::Refused(refusal) => format!("move {number} refused {refusal}\n"),
        Answer::Planned(plan) => {
            let (n, short) = (plan.samples(), plan.shortfall);
            let [p, q, r, s] = durations(plan.intervals);
            // D is at most S, which is at most 2^50.
            let snap = plan.switched as i64 * motion.displacement.signum();
            format!("move {number} n {n} p {p} q {q} r {r} s {s} snap {snap} short {short}\n")
        }
    }
}
