//! A request with its outcome, as the conditions look at it. What the request
//! does not have reads as 0, empty or none.

use super::axes::Set;
use crate::force::{write_rows, Coefficients, Drive, Machine};
use crate::planner::{deciding_lower_limits, deciding_searches, product};
use crate::planner::{Intervals, Move, Order};
use crate::profile::{Profile, Sample};
use crate::request::{Outcome, Request};
use crate::sheet::{longest_beginning, Line, Parts};

pub struct Case<'a> {
    pub request: &'a Request,
    pub outcome: &'a Outcome,
}

impl Case<'_> {
    pub fn refusal(&self) -> i128 {
        self.outcome.refusal()
    }

    pub fn accepted(&self) -> bool {
        self.outcome.accepted()
    }

    pub fn field(&self, place: usize) -> i128 {
        self.outcome.fields[place]
    }

    pub fn x(&self) -> i64 {
        self.request
            .motion()
            .map_or(0, |motion| motion.displacement)
    }

    /// The start count and the end count.
    pub fn ends(&self) -> [i128; 2] {
        self.request.motion().map_or([0; 2], Move::ends)
    }

    pub fn bounds(&self) -> [u64; 4] {
        self.request.motion().map_or([0; 4], Move::bounds)
    }

    /// The intervals, also where N is above 4,096 or the start or the end is refused.
    pub fn found(&self) -> Option<Intervals> {
        let motion = self.request.motion()?.starting_at(0);
        Intervals::of(self.request.order(), &motion).ok()
    }

    /// N, of any intervals that are found; of a set the largest of its axes.
    pub fn n(&self) -> u128 {
        match Set::of(self) {
            Some(set) => set.n().into(),
            None => self.found().map_or(0, |found| found.samples()),
        }
    }

    /// Whether a search, or a lower limit, alone gives its interval.
    pub fn decides(&self, search: usize) -> bool {
        self.decided_by(search).is_some()
    }

    pub fn limits(&self, interval: usize) -> bool {
        let limits = |found: Intervals| deciding_lower_limits(&found).contains(&interval);
        self.found().is_some_and(limits)
    }

    /// The two sides that a search, numbered 0 to 9, compares at n.
    fn sides(&self, found: &Intervals, search: usize, n: u128) -> [u128; 2] {
        let [v, acceleration, j, s] = self.bounds().map(u128::from);
        let Intervals { a, j1, a1, v1, .. } = *found;
        let (ab, w) = (a + found.b, self.request.motion().map_or(0, Move::w));
        match search {
            0 => [8 * s * n.pow(4), w],
            1 => [2 * s * n.pow(3), v],
            2 => [s * n.pow(2), acceleration],
            3 => [s * n, j],
            4 => [2 * j1 * n * (a + n).pow(2), w],
            5 => [j1 * n * (a + n), v],
            6 => [j1 * n, acceleration],
            7 => [a1 * n * (ab + n), w],
            8 => [a1 * n, v],
            _ => [v1 * n, w],
        }
    }

    fn decided_by(&self, search: usize) -> Option<Intervals> {
        let decides = |found: &Intervals| deciding_searches(found).contains(&search);
        self.found().filter(decides)
    }

    /// Whether a search decides alone, with equality.
    pub fn equal(&self, search: usize) -> bool {
        self.decided_by(search).is_some_and(|found| {
            let [reached, target] = self.sides(&found, search, found.searches.all()[search]);
            reached == target
        })
    }

    /// Whether a search decides alone, and its product would be too small if it were
    /// cut to 64 bits, where a search that halves 1 to 4,097 asks.
    pub fn wraps(&self, search: usize) -> bool {
        self.decided_by(search).is_some_and(|found| {
            let at = |n| self.sides(&found, search, n);
            let mut asked = (1..=11).map(|k| at((1 << k) + 1));
            asked.any(|[reached, target]| reached >= target && u128::from(reached as u64) < target)
        })
    }

    /// Whether W over P in floats, rounded down, is above what is switched.
    pub fn float_rounds_up(&self) -> bool {
        let (Some(motion), Some(found)) = (self.request.motion(), self.found()) else {
            return false;
        };
        let (w, p) = (motion.w(), product(found.all()));
        (w as f64 / p as f64) as u128 > w / p
    }

    /// Whether other factors or another drive, made of the machine as it is read
    /// and as it was sent, give other rows.
    pub fn differs(&self, other: impl Fn(Machine, &Machine) -> (Coefficients, Drive)) -> bool {
        let Request::Force(motion, sent, _) = self.request else {
            return false;
        };
        let (Ok(profile), Some(read)) = (Profile::of(Order::Fourth, motion), sent.checked()) else {
            return false;
        };
        let mut table = vec![0.0; self.outcome.rows.len()];
        let (q, drive) = other(read, sent);
        write_rows(&profile, &q, drive, &mut table);
        let bits = table.into_iter().map(f64::to_bits);
        !bits.eq(self.outcome.rows.iter().copied())
    }

    pub fn k(&self) -> u128 {
        match self.request {
            Request::Sample(_, _, k) | Request::SampleAxes(_, k) => (*k).into(),
            _ => 0,
        }
    }

    /// The position, its distance from the start and the remainder of the sample whose
    /// numbers begin at this field.
    pub fn rounding(&self, first: usize, start: i64) -> [i64; 3] {
        let number = |number| self.field(first + number) as i64;
        let [position, remainder] = [Sample::POSITION, Sample::REMAINDER].map(number);
        [position, position - (start << 40), remainder]
    }

    pub fn places(&self) -> i128 {
        self.request.places().unwrap_or(0).into()
    }

    pub fn machine(&self) -> [f64; 6] {
        match self.request {
            Request::Force(_, machine, _) => machine.numbers(),
            _ => [0.0; 6],
        }
    }

    pub fn wrong_machine(&self) -> bool {
        Machine::new(self.machine()).checked().is_none()
    }

    pub fn text(&self) -> &[u8] {
        match self.request {
            Request::Sheet(text) => text,
            _ => &[],
        }
    }

    pub fn report(&self) -> Vec<u8> {
        self.outcome.rows.iter().map(|byte| *byte as u8).collect()
    }

    /// Where a malformed text cannot go on.
    pub fn stops_in(&self) -> &'static str {
        let text = self.text();
        let parts = (self.refusal() == 11).then(|| Parts::of(longest_beginning(text)));
        match parts.flatten().map(|parts| parts.next_line()) {
            Some(Some(Line::SetCount)) => "the first count",
            Some(Some(Line::Set)) => "a set",
            Some(Some(Line::MoveCount)) => "the second count",
            Some(Some(Line::Move { .. })) => "a move",
            Some(None) => "the end",
            None => "",
        }
    }
}
