//! The moves that are timed. They are the same in every run.

use reference::draw::{moves, Random};
use reference::planner::{plan, Move, Order};

/// How many moves a mix has.
pub const MIX: usize = 512;

/// Any fixed number.
const SEED: u64 = 4;

/// Planned moves.
pub fn planned_mix() -> Vec<Move> {
    mix(moves::planned)
}

/// Moves as they come, edges and refusals among them.
pub fn whole_mix() -> Vec<Move> {
    mix(|random| moves::any(Order::Fourth, random))
}

fn mix(draw: fn(&mut Random) -> Move) -> Vec<Move> {
    let mut random = Random::new(SEED);
    (0..MIX).map(|_| draw(&mut random)).collect()
}

/// Sixteenths of a move that belong to p, to q and to r; s takes the rest.
const SHAPES: [[u64; 3]; 6] = [
    [16, 0, 0],
    [8, 0, 0],
    [8, 8, 0],
    [4, 4, 4],
    [2, 2, 2],
    [3, 1, 12],
];

/// A move of this shape that takes exactly `n` samples, 8 or more, if there is one.
fn of_shape(order: Order, n: u64, shape: [u64; 3]) -> Option<Move> {
    let motion = moves::of_samples(order, n, shape);
    (plan(order, &motion).samples() == Some(n)).then_some(motion)
}

/// All such moves, in both directions.
pub fn moves_of(n: u64) -> Vec<Move> {
    let mut list = Vec::new();
    let of_shape = |shape| of_shape(Order::Fourth, n, shape);
    for motion in SHAPES.into_iter().filter_map(of_shape) {
        if !list.contains(&motion) {
            list.extend([motion, opposite(&motion)]);
        }
    }
    list
}

/// Such moves, and beside each one of its shape that takes as many in third order.
pub fn pairs_of(n: u64) -> Vec<[Move; 2]> {
    let pair = |shape| {
        let [fourth, third] = [Order::Fourth, Order::Third].map(|order| of_shape(order, n, shape));
        Some([fourth?, third?])
    };
    let pairs = SHAPES.into_iter().filter_map(pair);
    pairs
        .flat_map(|pair| [pair, pair.map(|motion| opposite(&motion))])
        .collect()
}

fn opposite(motion: &Move) -> Move {
    Move::new(-motion.displacement, motion.bounds())
}
