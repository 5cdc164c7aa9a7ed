//! A call of an entry, and all that the paper says it gives.

use crate::force::{force_table, Machine};
use crate::planner::{plan, plan_axes, Answer, Axes, AxesPlan, AxesRefusal};
use crate::planner::{Move, Order, Plan, MOST_AXES};
use crate::profile::{position_table, reference_table, sample, sample_axes, Sample};
use crate::profile::{SampleAnswer, TableAnswer};
use crate::sheet::{self, SheetRefusal, MOST_MOVES, MOST_SETS};

/// What is sent to an entry; a table is lent with so many places.
#[derive(Clone, Debug)]
pub enum Request {
    Plan(Order, Move),
    Sample(Order, Move, u64),
    Positions(Order, Move, u64),
    Reference(Order, Move, u64),
    Force(Move, Machine, u64),
    Sheet(Vec<u8>),
    PlanAxes(Axes),
    SampleAxes(Axes, u64),
}

/// What an entry gives.
#[derive(Clone, Debug)]
pub struct Outcome {
    /// The refusal, 0 for none, and then every other field of the answer.
    pub fields: Vec<i128>,
    /// What is written to the lent table or buffer from its first place on, each
    /// place as its bits; every other place keeps what it held.
    pub rows: Vec<u64>,
}

impl Outcome {
    pub fn refusal(&self) -> i128 {
        self.fields[0]
    }

    pub fn accepted(&self) -> bool {
        self.refusal() == 0
    }
}

impl Request {
    /// The order of the plan; where it is not sent, it is the fourth.
    pub fn order(&self) -> Order {
        match self {
            Request::Plan(order, _)
            | Request::Sample(order, _, _)
            | Request::Positions(order, _, _)
            | Request::Reference(order, _, _) => *order,
            _ => Order::Fourth,
        }
    }

    /// The move that is sent; a sheet and a set have many.
    pub fn motion(&self) -> Option<&Move> {
        match self {
            Request::Plan(_, motion)
            | Request::Sample(_, motion, _)
            | Request::Positions(_, motion, _)
            | Request::Reference(_, motion, _)
            | Request::Force(motion, _, _) => Some(motion),
            Request::Sheet(_) | Request::PlanAxes(_) | Request::SampleAxes(..) => None,
        }
    }

    /// The places that are lent for rows.
    pub fn places(&self) -> Option<u64> {
        match self {
            Request::Positions(_, _, places)
            | Request::Reference(_, _, places)
            | Request::Force(_, _, places) => Some(*places),
            Request::Plan(..) | Request::Sample(..) | Request::Sheet(_) => None,
            Request::PlanAxes(_) | Request::SampleAxes(..) => None,
        }
    }

    /// What the reference says.
    pub fn expected(&self) -> Outcome {
        match self {
            Request::Plan(order, motion) => fields_alone(plan_fields(*order, motion)),
            Request::Sample(order, motion, k) => {
                fields_alone(sample_fields(sample(*order, motion, *k)))
            }
            Request::Positions(order, motion, places) => filled(
                *places,
                |table| position_table(*order, motion, table),
                |row: i64| row as u64,
            ),
            Request::Reference(order, motion, places) => filled(
                *places,
                |table| reference_table(*order, motion, table),
                |row: i64| row as u64,
            ),
            Request::Force(motion, machine, places) => filled(
                *places,
                |table| force_table(motion, machine, table),
                f64::to_bits,
            ),
            Request::Sheet(text) => Outcome {
                fields: sheet_fields(text),
                rows: sheet::report(text).into_iter().map(u64::from).collect(),
            },
            Request::PlanAxes(axes) => fields_alone(axes_fields(plan_axes(axes), set_fields)),
            Request::SampleAxes(axes, k) => {
                fields_alone(axes_fields(sample_axes(axes, *k), samples_fields))
            }
        }
    }
}

fn fields_alone(fields: Vec<i128>) -> Outcome {
    let rows = Vec::new();
    Outcome { fields, rows }
}

/// Refusal, N, a, b, c, e, D and shortfall; in third order the jerk for D, and no a.
fn plan_fields(order: Order, motion: &Move) -> Vec<i128> {
    let (refusal, plan) = match plan(order, motion) {
        Answer::Refused(number) => (number, Plan::default()),
        Answer::Planned(plan) => (0, plan),
    };
    let mut fields = vec![refusal.into(), plan.samples().into()];
    let numbers = plan.numbers().map(i128::from);
    fields.extend(numbers.iter().skip(4 - order as usize));
    fields
}

/// Refusal, snap, jerk, acceleration, velocity, position, count and remainder.
fn sample_fields(answer: SampleAnswer) -> Vec<i128> {
    let (refusal, sample) = match answer {
        SampleAnswer::Refused(number) => (number, Sample::default()),
        SampleAnswer::Sampled(sample) => (0, sample),
    };
    let mut fields = vec![refusal.into()];
    fields.extend(sample.numbers().map(i128::from));
    fields
}

/// Refusal and place, and then what a set gives: all 0 at a refusal.
fn axes_fields<T: Copy + Default>(
    answer: Result<T, AxesRefusal>,
    given: fn(T) -> Vec<i128>,
) -> Vec<i128> {
    let AxesRefusal { place, number } = answer.err().unwrap_or_default();
    let head = vec![number.into(), place.into()];
    [head, given(answer.unwrap_or_default())].concat()
}

/// N, and a, b, c, e, D and shortfall of each place.
fn set_fields(set: AxesPlan) -> Vec<i128> {
    let plans = set.plans.iter().flat_map(Plan::numbers);
    let all = [set.samples].into_iter().chain(plans);
    all.map(i128::from).collect()
}

/// Snap, jerk, acceleration, velocity, position, count and remainder of each place.
fn samples_fields(samples: [Sample; MOST_AXES]) -> Vec<i128> {
    let numbers = samples.iter().flat_map(Sample::numbers);
    numbers.map(i128::from).collect()
}

/// Refusal and number of rows; and the rows.
fn filled<T: Copy + Default>(
    places: u64,
    fill: impl FnOnce(&mut [T]) -> TableAnswer,
    bits: fn(T) -> u64,
) -> Outcome {
    let mut table = vec![T::default(); places as usize];
    let [refusal, rows] = match fill(&mut table) {
        TableAnswer::Refused(number) => [number.into(), 0],
        TableAnswer::Written(rows) => [0, rows],
    };
    Outcome {
        fields: vec![refusal.into(), rows.into()],
        rows: table.into_iter().take(rows as usize).map(bits).collect(),
    }
}

/// Refusal, line, numbers of sets and of moves; V A J S of every set and X and
/// the set number of every move, 0 at the places that the sheet does not use.
fn sheet_fields(text: &[u8]) -> Vec<i128> {
    let read = sheet::read(text);
    let (sets, moves) = match &read {
        Ok(sheet) => (&sheet.sets[..], &sheet.moves[..]),
        Err(_) => (&[][..], &[][..]),
    };
    let [refusal, line] = match &read {
        Ok(_) => [0, 0],
        Err(SheetRefusal::Malformed { line }) => [11, *line],
        Err(SheetRefusal::TooLong) => [12, 0],
    };
    let mut fields = vec![refusal, line, sets.len() as u64, moves.len() as u64];
    fields.extend(sets.iter().flatten());
    fields.resize(4 + 4 * MOST_SETS as usize, 0);
    let mut fields: Vec<i128> = fields.into_iter().map(i128::from).collect();
    for entry in moves {
        fields.extend([i128::from(entry.displacement), entry.set.into()]);
    }
    fields.resize(4 + 4 * MOST_SETS as usize + 2 * MOST_MOVES as usize, 0);
    fields
}
