//! The kinds of requests, one for each entry: how they are drawn, what a run of
//! them must contain, and how many there are.

use crate::conditions::{self, Case, Condition};
use crate::draw::{axes, axes_edges, machines, paper, samples, starts, texts, Random};
use crate::planner::{Move, Order};
use crate::request::{Outcome, Request};
use std::vec::IntoIter;

pub struct Kind {
    pub name: &'static str,
    /// The calls of the differential test.
    pub calls: u64,
    /// The stored requests beside those that meet a condition.
    pub stored: usize,
    /// Requests that every run sends first, and how the others are drawn.
    pub fixed: fn() -> Vec<Request>,
    pub draw: fn(&mut Random) -> Request,
    pub conditions: fn() -> Vec<Condition>,
}

pub const KINDS: [Kind; 12] = [
    Kind {
        name: "plan",
        calls: 1_000_000,
        stored: 120,
        fixed: Vec::new,
        draw: |random| Request::Plan(Order::Fourth, starts::any(Order::Fourth, random)),
        conditions: || conditions::plan(Order::Fourth),
    },
    Kind {
        name: "sample",
        calls: 100_000,
        stored: 120,
        fixed: Vec::new,
        draw: |random| sampled(Order::Fourth, random),
        conditions: || conditions::sample(Order::Fourth),
    },
    Kind {
        name: "positions",
        calls: 2_000,
        stored: 120,
        fixed: Vec::new,
        draw: |random| with_places(Order::Fourth, 1, random, Request::Positions),
        conditions: || conditions::positions(Order::Fourth),
    },
    Kind {
        name: "reference",
        calls: 2_000,
        stored: 120,
        fixed: Vec::new,
        draw: |random| with_places(Order::Fourth, 2, random, Request::Reference),
        conditions: || conditions::reference(Order::Fourth),
    },
    Kind {
        name: "force",
        calls: 1_000,
        stored: 120,
        fixed: Vec::new,
        draw: |random| {
            let motion = starts::any(Order::Fourth, random);
            let places = samples::places(Order::Fourth, &motion, 2, random);
            Request::Force(motion, machines::any(random), places)
        },
        conditions: conditions::force,
    },
    Kind {
        name: "sheet",
        calls: 20_000,
        stored: 120,
        fixed: || texts::edited().into_iter().map(Request::Sheet).collect(),
        draw: |random| Request::Sheet(texts::any(random)),
        conditions: conditions::sheet,
    },
    Kind {
        name: "axes",
        calls: 20_000,
        stored: 40,
        fixed: || {
            let sets = axes_edges::sets().into_iter();
            sets.map(|(axes, _)| Request::PlanAxes(axes)).collect()
        },
        draw: |random| Request::PlanAxes(axes::any(random)),
        conditions: conditions::axes::plans,
    },
    Kind {
        name: "axes_sample",
        calls: 20_000,
        stored: 40,
        fixed: || {
            let sent = |(axes, k, _)| Request::SampleAxes(axes, k);
            axes_edges::samples().into_iter().map(sent).collect()
        },
        draw: |random| {
            let (axes, k) = samples::of_axes(random);
            Request::SampleAxes(axes, k)
        },
        conditions: conditions::axes::samples,
    },
    Kind {
        name: "third_plan",
        calls: 1_000_000,
        stored: 40,
        fixed: || third(|motion| Request::Plan(Order::Third, motion)),
        draw: |random| Request::Plan(Order::Third, starts::any(Order::Third, random)),
        conditions: || conditions::plan(Order::Third),
    },
    Kind {
        name: "third_sample",
        calls: 100_000,
        stored: 40,
        fixed: || third(|motion| Request::Sample(Order::Third, motion, 3)),
        draw: |random| sampled(Order::Third, random),
        conditions: || conditions::sample(Order::Third),
    },
    Kind {
        name: "third_positions",
        calls: 2_000,
        stored: 40,
        fixed: || third(|motion| Request::Positions(Order::Third, motion, 13)),
        draw: |random| with_places(Order::Third, 1, random, Request::Positions),
        conditions: || conditions::positions(Order::Third),
    },
    Kind {
        name: "third_reference",
        calls: 2_000,
        stored: 40,
        fixed: || third(|motion| Request::Reference(Order::Third, motion, 14)),
        draw: |random| with_places(Order::Third, 2, random, Request::Reference),
        conditions: || conditions::reference(Order::Third),
    },
];

/// Requests about the worked move of third order, which differ in S alone.
fn third(request: fn(Move) -> Request) -> Vec<Request> {
    paper::third().map(request).to_vec()
}

/// A request for any sample of any move.
fn sampled(order: Order, random: &mut Random) -> Request {
    let (motion, k) = samples::of_move(order, random);
    Request::Sample(order, motion, k)
}

/// A request for a table of N and `more` rows of any move.
fn with_places(
    order: Order,
    more: u64,
    random: &mut Random,
    request: impl FnOnce(Order, Move, u64) -> Request,
) -> Request {
    let motion = starts::any(order, random);
    let places = samples::places(order, &motion, more, random);
    request(order, motion, places)
}

/// Requests drawn in vain before the conditions that are left are given up.
const MOST_DRAWS: u64 = 500_000;

/// Requests of one kind from a seed: the fixed ones; then such as meet a condition
/// that is left; then as they come.
pub struct Requests {
    kind: &'static Kind,
    fixed: IntoIter<Request>,
    random: Random,
    unmet: Vec<Condition>,
    draws_left: u64,
}

impl Requests {
    pub fn new(kind: &'static Kind, seed: u64) -> Requests {
        Requests {
            kind,
            fixed: (kind.fixed)().into_iter(),
            random: Random::new(seed),
            unmet: (kind.conditions)(),
            draws_left: MOST_DRAWS,
        }
    }

    /// The next request that fits, with what the reference says to it.
    pub fn draw(&mut self, fits: impl Fn(&Request, &Outcome) -> bool) -> (Request, Outcome) {
        loop {
            let fixed = self.fixed.next();
            let is_fixed = fixed.is_some();
            let request = fixed.unwrap_or_else(|| (self.kind.draw)(&mut self.random));
            let outcome = request.expected();
            if !fits(&request, &outcome) {
                continue;
            }
            let before = self.unmet.len();
            let case = Case {
                request: &request,
                outcome: &outcome,
            };
            self.unmet.retain(|condition| !(condition.met)(&case));
            if is_fixed || self.unmet.len() < before || self.settled() {
                return (request, outcome);
            }
            self.draws_left -= 1;
        }
    }

    /// Whether the fixed ones are sent, and every condition is met or given up.
    pub fn settled(&self) -> bool {
        let given_up = self.draws_left == 0;
        self.fixed.len() == 0 && (self.unmet.is_empty() || given_up)
    }

    /// The conditions that no request has met yet.
    pub fn unmet(&self) -> Vec<String> {
        self.unmet
            .iter()
            .map(|condition| condition.name.clone())
            .collect()
    }
}
