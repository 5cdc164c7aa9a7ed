//! What the requests of a run must contain: a table of conditions for each kind,
//! checked by the run that makes the requests.

pub mod axes;
mod case;
mod starts;
mod third;

pub use case::Case;

use crate::draw::machines::{ABOVE_LARGEST, BELOW_STIFFNESS, LEAST};
use crate::draw::moves::{BOUND_EDGES, DISPLACEMENT_EDGES};
use crate::draw::samples::beyond_half;
use crate::force::{Coefficients, Drive, Machine, LARGEST_NUMBER, LEAST_STIFFNESS};
use crate::planner::Order;
use crate::sheet::LARGEST_TEXT;

/// In words, and whether a request meets it.
pub struct Condition {
    pub name: String,
    pub met: Box<dyn Fn(&Case) -> bool>,
}

type Table = Vec<Condition>;

fn row(name: impl Into<String>, met: impl Fn(&Case) -> bool + 'static) -> Condition {
    let (name, met) = (name.into(), Box::new(met));
    Condition { name, met }
}

/// The same of a request that is accepted.
fn accepted(name: impl Into<String>, met: impl Fn(&Case) -> bool + 'static) -> Condition {
    row(name, move |case| case.accepted() && met(case))
}

const SEARCHES: [&str; 10] = [
    "a by W", "a by V", "a by A", "a by J", "b by W", "b by V", "b by A", "c by W", "c by V",
    "e by W",
];

pub fn plan(order: Order) -> Table {
    joined([moves(order), edges(order), starts::edges(order)])
}

pub fn sample(order: Order) -> Table {
    joined([refusals([9]), moves(order), ends(), samples()])
}

pub fn positions(order: Order) -> Table {
    joined([refusals([8]), moves(order), places(1)])
}

pub fn reference(order: Order) -> Table {
    joined([refusals([8]), moves(order), places(2), starts::outer_rows()])
}

pub fn force() -> Table {
    let machines = joined([places(2), machines(), machine_edges(), rows()]);
    joined([refusals([8, 10]), moves(Order::Fourth), machines])
}

pub fn sheet() -> Table {
    joined([refusals(11..=12), lines(), sizes(), reports()])
}

fn joined<const COUNT: usize>(tables: [Table; COUNT]) -> Table {
    tables.into_iter().flatten().collect()
}

fn refusals(numbers: impl IntoIterator<Item = i128>) -> Table {
    let refused = |number| {
        let name = format!("refusal {number}");
        row(name, move |case| case.refusal() == number)
    };
    numbers.into_iter().map(refused).collect()
}

/// The searches of an order, numbered 0 to 9; in third order there is no a.
fn searches(order: Order) -> impl Iterator<Item = (usize, &'static str)> {
    let first = if order == Order::Third { 4 } else { 0 };
    SEARCHES.into_iter().enumerate().skip(first)
}

/// The planner's refusals; both directions, from 0 and across it; the most samples and
/// one more; each search, and each "never below", decides alone in a move that is
/// accepted.
fn moves(order: Order) -> Table {
    let mut table = vec![
        accepted("N = 4,096", |case| case.n() == 4_096),
        row("N = 4,097", |case| case.refusal() == 7 && case.n() == 4_097),
    ];
    for (search, name) in searches(order) {
        let decides = move |case: &Case| case.decides(search);
        table.push(accepted(format!("{name} decides"), decides));
    }
    // In third order b has none.
    let limited = [(1, "b"), (2, "c"), (3, "e")].into_iter();
    for (interval, name) in limited.skip(4 - order as usize) {
        let limits = move |case: &Case| case.limits(interval);
        table.push(accepted(format!("{name} by its lower limit"), limits));
    }
    let own = match order {
        Order::Third => third::moves(),
        Order::Fourth => refusals([6]),
    };
    let refused = refusals([1, 2, 3, 4, 5, 14, 7]);
    joined([refused, starts::moves(), table, own])
}

/// Each search with equality; products that do not fit 64 bits, a quotient that
/// does not fit a float; every edge of each number that is read.
fn edges(order: Order) -> Table {
    let mut table = vec![accepted("W/P in floats", |case| case.float_rounds_up())];
    for (search, name) in searches(order) {
        let equal = move |case: &Case| case.equal(search);
        table.push(accepted(format!("{name} with equality"), equal));
        if [0, 4, 7].contains(&search) {
            let wraps = move |case: &Case| case.wraps(search);
            table.push(accepted(format!("{name} in 64 bits"), wraps));
        }
    }
    for (edge, refusal) in DISPLACEMENT_EDGES {
        let at = move |case: &Case| case.x() == edge && case.refusal() == refusal;
        table.push(row(format!("X = {edge}"), at));
    }
    let bounds = ["V", "A", "J", "S"].into_iter().enumerate();
    for (place, name) in bounds.take(order as usize) {
        for (edge, inside) in BOUND_EDGES {
            let refusal = 3 + place as i128;
            let decides = move |case: &Case| match inside {
                true => case.accepted() || case.refusal() == 7,
                false => case.refusal() == refusal,
            };
            let at = move |case: &Case| case.bounds()[place] == edge && decides(case);
            table.push(row(format!("{name} = {edge}"), at));
        }
    }
    table
}

/// The first and the last samples, and later ones.
fn ends() -> Table {
    let past_end =
        |name, met: fn(&Case) -> bool| row(name, move |case| case.refusal() == 9 && met(case));
    vec![
        accepted("k = 0", |case| case.k() == 0),
        accepted("k = N", |case| case.k() == case.n()),
        past_end("k = N+1", |case| case.k() == case.n() + 1),
        past_end("k = N+2^32", |case| case.k() == case.n() + (1 << 32)),
        past_end("k = 2^64-1", |case| case.k() == u64::MAX.into()),
    ]
}

/// 9 beside the planner's last; what rounding does.
fn samples() -> Table {
    let start = |case: &Case| case.ends()[0] as i64;
    let alone = |name, are: Rounds| accepted(name, move |case| are(case.rounding(1, start(case))));
    joined([beside(9, |case| case.k() > case.n()), roundings(alone)])
}

/// A refusal that comes after the planner's last two, beside each of them.
fn beside(later: i128, applies: fn(&Case) -> bool) -> Table {
    let both = |number| {
        let name = format!("{number} and {later}");
        row(name, move |case| case.refusal() == number && applies(case))
    };
    [14, 7].map(both).into()
}

/// Whether a position, its distance from the start and its remainder are as a condition
/// says.
type Rounds = Box<dyn Fn([i64; 3]) -> bool>;

/// Distances at a half count and a unit beside it, and remainders of either sign, in
/// both directions; `condition` says whose they are.
fn roundings(condition: impl Fn(String, Rounds) -> Condition) -> Table {
    let mut table = Table::new();
    for direction in [1, -1] {
        for distance in [-1, 0, 1] {
            let name = format!("{distance} units from a half count, direction {direction}");
            let wanted = [direction, distance];
            let near = move |[_, far, _]: [i64; 3]| [far.signum(), beyond_half(far)] == wanted;
            table.push(condition(name, Box::new(near)));
        }
        // Away from the start is towards the rail's zero.
        let name = format!("a half count before zero, direction {direction}");
        let wanted = [-direction, direction, 0];
        let before =
            move |[at, far, _]: [i64; 3]| [at.signum(), far.signum(), beyond_half(far)] == wanted;
        table.push(condition(name, Box::new(before)));
        for sign in [1, -1] {
            let name = format!("a remainder of sign {sign}, direction {direction}");
            let left =
                move |[_, far, left]: [i64; 3]| [far, left].map(i64::signum) == [direction, sign];
            table.push(condition(name, Box::new(left)));
        }
    }
    table
}

/// Tables for N and `more` rows.
fn places(more: i128) -> Table {
    let short = |case: &Case| case.refusal() == 8;
    let table = vec![
        row("no places", move |case| short(case) && case.places() == 0),
        row("one place too few", move |case| {
            short(case) && case.places() == case.n() as i128 + more - 1
        }),
        accepted("just enough", |case| case.places() == case.field(1)),
        accepted("more places", |case| case.places() > case.field(1)),
    ];
    joined([beside(8, |case| case.places() == 0), table])
}

/// Both drives, and a machine that is wrong beside a lower refusal.
fn machines() -> Table {
    let k12 = |case: &Case| case.machine()[4];
    let table = vec![
        row("8 and 10", |case| {
            case.refusal() == 8 && case.wrong_machine()
        }),
        accepted("rigid", move |case| k12(case) == 0.0),
        accepted("filtered", move |case| k12(case) > 1e-30),
    ];
    joined([beside(10, |case| case.wrong_machine()), table])
}

/// Rows that would be others with a wrong rule: a k12 below 2^-1022 taken for 0, the
/// sums of q2 or q3 from the right, a minus zero kept in all numbers or in a mass.
fn rows() -> Table {
    let tiny = |case: &Case| (LEAST..f64::MIN_POSITIVE).contains(&case.machine()[4]);
    let rigid = |read: Machine, _: &Machine| (Coefficients::of(&read), Drive::Rigid { c: read.c });
    let mut table = vec![
        accepted("a tiny k12", move |case| tiny(case) && case.differs(rigid)),
        accepted("q2", |case| {
            case.differs(|read, _| (from_right(&read, true), Drive::of(&read)))
        }),
        accepted("q3", |case| {
            case.differs(|read, _| (from_right(&read, false), Drive::of(&read)))
        }),
    ];
    for direction in [1, -1] {
        let kept = |_: Machine, sent: &Machine| (Coefficients::of(sent), Drive::of(sent));
        let shows = move |case: &Case| case.x().signum() == direction && case.differs(kept);
        table.push(accepted(
            format!("minus zeros, direction {direction}"),
            shows,
        ));
    }
    for place in [0, 1] {
        let kept = move |read: Machine, sent: &Machine| {
            let mut numbers = read.numbers();
            numbers[place] = sent.numbers()[place];
            (Coefficients::of(&Machine::new(numbers)), Drive::of(&read))
        };
        table.push(accepted(
            format!("minus zero for mass {}", place + 1),
            move |case| case.differs(kept),
        ));
    }
    table
}

/// The factors with the sums of q2, or of q3, from the right.
fn from_right(machine: &Machine, second: bool) -> Coefficients {
    let [m1, m2, k1, k2, k12, c] = machine.numbers();
    let q = Coefficients::of(machine);
    let q2 = (m1 + m2) * k12 + (m1 * k2 + m2 * k1);
    let q3 = (m1 + m2) * c + (k1 * k2 + (k1 + k2) * k12);
    match second {
        true => Coefficients { q2, ..q },
        false => Coefficients { q3, ..q },
    }
}

/// Each number at its ends, next to them, and no number at all.
fn machine_edges() -> Table {
    let c = [(LEAST_STIFFNESS, 0), (BELOW_STIFFNESS, 10), (0.0, 10)];
    let mut edges = c.map(|(edge, refusal)| (5, edge, refusal)).to_vec();
    for place in 0..6 {
        edges.push((place, LARGEST_NUMBER, 0));
        let wrong = [ABOVE_LARGEST, -LEAST, -1.0, f64::INFINITY, f64::NAN];
        edges.extend(wrong.map(|edge| (place, edge, 10)));
    }
    let at = |(place, edge, refusal): (usize, f64, i128)| {
        let name = format!("number {} of the machine is {edge:e}", place + 1);
        let is = move |case: &Case| case.machine()[place].to_bits() == edge.to_bits();
        row(name, move |case| is(case) && case.refusal() == refusal)
    };
    edges.into_iter().map(at).collect()
}

/// Each kind of line in which a text cannot go on, and the end after the last.
fn lines() -> Table {
    let places = [
        "the first count",
        "a set",
        "the second count",
        "a move",
        "the end",
    ];
    let stops = |place| {
        row(format!("11 in {place}"), move |case| {
            case.stops_in() == place
        })
    };
    places.map(stops).into()
}

/// The least and the most sets, moves and bytes, and one more.
fn sizes() -> Table {
    vec![
        row("1 set", |case| case.field(2) == 1),
        row("16 sets", |case| case.field(2) == 16),
        row("17 sets", |case| {
            case.text().starts_with(b"17\n") && case.stops_in() == "the first count"
        }),
        row("1 move", |case| case.field(3) == 1),
        row("256 moves", |case| case.field(3) == 256),
        row("256 planned moves", |case| {
            case.field(3) == 256 && !holds(&case.report(), "refused")
        }),
        row("257 moves", |case| {
            holds(case.text(), "\n257\n") && case.stops_in() == "the second count"
        }),
        row("no bytes", |case| case.text().is_empty()),
        row("65,535 bytes", |case| case.text().len() == LARGEST_TEXT),
        row("65,536 bytes", |case| case.text().len() == LARGEST_TEXT + 1),
    ]
}

fn reports() -> Table {
    let refused = (1..=7).map(|number| format!("refused {number}\n"));
    let planned = ["snap -", "snap 1", "short 0\n"].map(String::from);
    let in_report = |part: String| {
        let name = format!("{part:?} in a report");
        row(name, move |case| holds(&case.report(), &part))
    };
    refused.chain(planned).map(in_report).collect()
}

fn holds(text: &[u8], part: &str) -> bool {
    text.windows(part.len())
        .any(|bytes| bytes == part.as_bytes())
}
