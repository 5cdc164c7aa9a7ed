//! Reading a sheet in one pass, and the report of it.

use super::output::Output;
use super::plan_narrow;
use crate::library::{MOST_MOVES, MOST_SETS, REPORT_BYTES};
use reference::planner::{durations, Answer, Move};
use reference::sheet::{self, Sheet, SheetMove};

/// The sheet, if the text is one. Only a bad sheet needs the exact line.
#[inline(never)]
pub fn read(text: &[u8]) -> Option<Sheet> {
    let mut rest = text;
    let count = number_up_to(&mut rest, MOST_SETS)?;
    let mut sets = Vec::with_capacity(count);
    for _ in 0..count {
        let mut set = [0; 4];
        for (bound, end) in set.iter_mut().zip(*b"   \n") {
            *bound = number(&mut rest, end)?;
        }
        sets.push(set);
    }
    let count = number_up_to(&mut rest, MOST_MOVES)?;
    let mut moves = Vec::with_capacity(count);
    for _ in 0..count {
        let displacement = displacement(&mut rest)?;
        let set = number_up_to(&mut rest, sets.len())? as u64;
        moves.push(SheetMove { displacement, set });
    }
    rest.is_empty().then_some(Sheet { sets, moves })
}

fn number_up_to(rest: &mut &[u8], most: usize) -> Option<usize> {
    let count = number(rest, b'\n')? as usize;
    (1..=most).contains(&count).then_some(count)
}

fn displacement(rest: &mut &[u8]) -> Option<i64> {
    let minus = rest.first() == Some(&b'-');
    *rest = &rest[usize::from(minus)..];
    let size = i64::try_from(number(rest, b' ')?).ok()?;
    match minus {
        true => (size > 0).then_some(-size),
        false => Some(size),
    }
}

/// Takes a number and the byte that ends it.
fn number(rest: &mut &[u8], end: u8) -> Option<u64> {
    let (mut number, mut digits) = (0_u64, 0);
    while let Some(byte @ b'0'..=b'9') = rest.get(digits) {
        number = number.wrapping_mul(10).wrapping_add(u64::from(byte - b'0'));
        digits += 1;
    }
    let spare = digits > 1 && rest[0] == b'0';
    if spare || !(1..=19).contains(&digits) || rest.get(digits) != Some(&end) {
        return None;
    }
    *rest = &rest[digits + 1..];
    Some(number)
}

/// Writes the report and gives its length.
#[inline(never)]
pub fn report(text: &[u8], buffer: &mut [u8; REPORT_BYTES]) -> usize {
    let Some(sheet) = read(text) else {
        let report = sheet::report(text);
        buffer[..report.len()].copy_from_slice(&report);
        return report.len();
    };
    let mut out = Output { buffer, length: 0 };
    for (number, motion) in (1..).zip(sheet.motions()) {
        move_line(number, &motion, &mut out);
    }
    out.length
}

fn move_line(number: u64, motion: &Move, out: &mut Output) {
    out.put_number("move ", number);
    match plan_narrow(motion) {
        Answer::Refused(refusal) => out.put_number(" refused ", refusal.into()),
        Answer::Planned(plan) => {
            let [p, q, r, s] = durations(plan.intervals);
            let snap_word = match motion.displacement {
                ..0 => " snap -",
                _ => " snap ",
            };
            out.put_number(" n ", plan.samples());
            out.put_number(" p ", p);
            out.put_number(" q ", q);
            out.put_number(" r ", r);
            out.put_number(" s ", s);
            out.put_number(snap_word, plan.switched);
            out.put_number(" short ", plan.shortfall);
        }
    }
    out.put(b"\n");
}
