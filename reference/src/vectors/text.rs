//! Requests and answers as text, in the form that the program `vectors` has.

use crate::force::Machine;
use crate::planner::{Axes, Move, Order};
use crate::request::{Outcome, Request};

/// Places of a table that are written out; the sum is over all of them.
const SHOWN: usize = 12;

/// What a place holds before the call: no row is so large.
const MARK: u64 = 1 << 62;
const FORCE_MARK: u64 = (1_023 + 900) << 52;

/// A letter and numbers, in a line, in third order after a 3; the bytes of a sheet
/// follow it.
pub fn input(request: &Request, outcome: &Outcome) -> Vec<u8> {
    let line = match request {
        Request::Plan(_, motion) => format!("p{}", of_move(motion)),
        Request::Sample(_, motion, k) => format!("s{} {k}", of_move(motion)),
        Request::Positions(_, motion, places) => {
            format!("t{} {places} {}", of_move(motion), first(*places, outcome))
        }
        Request::Reference(_, motion, places) => {
            format!("r{} {places} {}", of_move(motion), first(*places, outcome))
        }
        Request::Force(motion, machine, places) => {
            let (motion, machine) = (of_move(motion), of_machine(machine));
            format!("f{motion}{machine} {places} {}", first(*places, outcome))
        }
        Request::Sheet(text) => return sheet_input(text),
        Request::PlanAxes(axes) => format!("P{}", of_axes(axes)),
        Request::SampleAxes(axes, k) => format!("S{} {k}", of_axes(axes)),
    };
    let order = match request.order() {
        Order::Third => "3 ",
        Order::Fourth => "",
    };
    format!("{order}{line}\n").into_bytes()
}

fn of_move(motion: &Move) -> String {
    let bounds = motion.bounds().map(|bound| format!(" {bound}")).concat();
    format!(" {}{bounds} {}", motion.displacement, motion.start)
}

fn of_axes(axes: &Axes) -> String {
    format!(
        " {}{}",
        axes.count,
        axes.moves.map(|motion| of_move(&motion)).concat()
    )
}

fn of_machine(machine: &Machine) -> String {
    let number = |number: f64| format!(" x{:016x}", number.to_bits());
    machine.numbers().map(number).concat()
}

/// The first place that is written out: of a long table the last rows.
fn first(places: u64, outcome: &Outcome) -> usize {
    match places as usize {
        0..=SHOWN => 0,
        _ => (outcome.fields[1] as usize).saturating_sub(SHOWN / 2),
    }
}

/// How many bytes follow, and how many the text has: zeros at its end are left out.
fn sheet_input(text: &[u8]) -> Vec<u8> {
    let zeros = text.iter().rev().take_while(|byte| **byte == 0).count();
    let bytes = &text[..text.len() - zeros];
    let line = format!("b {} {}\n", bytes.len(), text.len());
    [line.as_bytes(), bytes].concat()
}

/// The answer in a line; a table's has places and a sum, a sheet's a sum, and the
/// report follows it.
pub fn output(request: &Request, outcome: &Outcome) -> Vec<u8> {
    let fields = &outcome.fields;
    let line = match request {
        Request::Plan(..) => answer("planned", &fields[2..], outcome),
        Request::Sample(..) => answer("sample", &fields[1..], outcome),
        Request::Positions(_, _, places) | Request::Reference(_, _, places) => {
            table(*places, outcome, MARK, |place| format!(" {}", place as i64))
        }
        Request::Force(_, _, places) => table(*places, outcome, FORCE_MARK, |place| {
            format!(" x{place:016x}")
        }),
        Request::Sheet(_) => {
            let sum = sum(fields[4..].iter().map(|place| *place as u64));
            let line = format!("{} sum {sum}\n", answer("read", &fields[2..4], outcome));
            let report = outcome.rows.iter().map(|byte| *byte as u8);
            return line.into_bytes().into_iter().chain(report).collect();
        }
        Request::PlanAxes(_) => of_set("planned", 3, outcome),
        Request::SampleAxes(..) => of_set("sample", 2, outcome),
    };
    (line + "\n").into_bytes()
}

/// The word with the numbers, or the refusal; 11 has its line.
fn answer(word: &str, numbers: &[i128], outcome: &Outcome) -> String {
    match outcome.refusal() {
        0 => numbers
            .iter()
            .fold(word.into(), |line, x| format!("{line} {x}")),
        11 => format!("refused 11 line {}", outcome.fields[1]),
        number => format!("refused {number}"),
    }
}

/// The word and N, if it is given, or the refusal with its place; then the places,
/// which begin at this field.
fn of_set(word: &str, places: usize, outcome: &Outcome) -> String {
    let (head, places) = outcome.fields.split_at(places);
    let answer = match head[0] {
        0 => answer(word, &head[2..], outcome),
        number => format!("refused {number} place {}", head[1]),
    };
    places.iter().fold(answer, |line, x| format!("{line} {x}"))
}

/// The answer, some places of the table after the call, and the sum over all.
fn table(places: u64, outcome: &Outcome, mark: u64, text: fn(u64) -> String) -> String {
    let mut all = outcome.rows.clone();
    all.resize(places as usize, mark);
    let shown = all.iter().skip(first(places, outcome)).take(SHOWN);
    let shown: String = shown.map(|place| text(*place)).collect();
    let answer = answer("rows", &outcome.fields[1..], outcome);
    format!("{answer}{shown} sum {}", sum(all.into_iter()))
}

/// A number that a change of any one place changes.
fn sum(places: impl Iterator<Item = u64>) -> u64 {
    places.fold(0, |sum, place| sum.wrapping_mul(33).wrapping_add(place))
}
