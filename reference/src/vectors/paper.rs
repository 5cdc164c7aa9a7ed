//! Requests about document 01's own values: its moves in both directions, the first
//! one's samples and tables, a half count of the second, the three forces, the sheet;
//! its moves as axes, and in third order, with the samples and tables of the worked move;
//! and its first and second moves from a start.

use crate::draw::paper;
use crate::planner::Order::{Fourth, Third};
use crate::planner::{Axes, Move};
use crate::request::Request;

/// Places of a table that are lent for a move of 8 samples: more than it fills.
const PLACES: u64 = 12;

pub fn requests() -> Vec<Request> {
    let moves = paper::moves();
    let first = moves[0];
    let mut list = moves.map(|motion| Request::Plan(Fourth, motion)).to_vec();
    list.extend((0..=8).map(|k| Request::Sample(Fourth, first, k)));
    // At sample 4 the second is at half a count, which rounds to 1, and backward to -1.
    list.extend([moves[1], moves[9]].map(|second| Request::Sample(Fourth, second, 4)));
    list.push(Request::Positions(Fourth, first, PLACES));
    // Just enough places and one too few; the third move falls short of its way.
    let tables = [(first, PLACES), (first, 10), (first, 9), (moves[2], 11)];
    list.extend(tables.map(|(motion, places)| Request::Reference(Fourth, motion, places)));
    list.extend(paper::machines().map(|machine| Request::Force(first, machine, PLACES)));
    list.push(Request::Sheet(paper::SHEET.to_vec()));
    let moves = std::array::from_fn(|place| moves[place]);
    let set = |count| Axes { count, moves };
    // The second is longer than the first, the seventh than all; the last is refused.
    list.extend([1, 2, 7, 8].map(|count| Request::PlanAxes(set(count))));
    list.extend([4, 9, 12, 13].map(|k| Request::SampleAxes(set(2), k)));
    list.extend(third());
    list.extend(started());
    list
}

/// The first from 100, the second across the rail's zero, where half counts go away from
/// the start; beside a rest and in third order; and the edges of the span.
fn started() -> Vec<Request> {
    let [first, second, ..] = paper::moves();
    let rest = Move::new(0, first.bounds()).starting_at(-7);
    let (first, second) = (first.starting_at(100), second.starting_at(-5));
    let mut list: Vec<_> = (0..=8).map(|k| Request::Sample(Fourth, first, k)).collect();
    list.extend((0..=12).map(|k| Request::Sample(Fourth, second, k)));
    let moves = [first, rest, second, first, first, first, first, first];
    list.extend([4, 12].map(|k| Request::SampleAxes(Axes { count: 3, moves }, k)));
    for order in [Fourth, Third] {
        list.push(Request::Positions(order, first, PLACES));
        list.push(Request::Reference(order, first, PLACES));
        let edges = [1_048_569, 1_048_568, -1_048_576, -1_048_577].into_iter();
        list.extend(edges.map(|start| Request::Plan(order, first.starting_at(start))));
    }
    list
}

/// The fifth is at a half count at sample 5. The worked move has 12 samples.
fn third() -> Vec<Request> {
    let (moves, [worked, ..]) = (paper::moves(), paper::third());
    let mut list = moves.map(|motion| Request::Plan(Third, motion)).to_vec();
    list.extend([moves[4], moves[12]].map(|fifth| Request::Sample(Third, fifth, 5)));
    list.extend((0..=13).map(|k| Request::Sample(Third, worked, k)));
    list.push(Request::Positions(Third, worked, 15));
    list.extend([15, 14, 13].map(|places| Request::Reference(Third, worked, places)));
    list
}
