//! Document 01's own values, and a move worked by chapter 5 of document 001.

use super::moves::BOUND_EDGES;
use crate::force::Machine;
use crate::planner::{Move, UNITS_PER_COUNT};

const G: u64 = UNITS_PER_COUNT as u64;

/// X, V and A of each row of "Moves to check by"; S = J = G in all of them.
const ROWS: [(i64, u64, u64); 8] = [
    (8, 2 * G, G),
    (8, G, G),
    (1, 219_902_325_556, G),
    (1, 219_902_325_555, G),
    (96, 1_000 * G, 4 * G),
    (96, 1_000 * G, 2 * G),
    (4_092, G, G),
    (4_093, G, G),
];

/// The rows, and then the same in the other direction.
pub fn moves() -> [Move; 16] {
    std::array::from_fn(|k| {
        let (x, velocity, acceleration) = ROWS[k % 8];
        let x = if k < 8 { x } else { -x };
        Move::new(x, [velocity, acceleration, G, G])
    })
}

/// A move that has all seven segments in third order, with S at each edge: it is not read.
pub fn third() -> [Move; BOUND_EDGES.len()] {
    BOUND_EDGES.map(|(snap, _)| Move::new(42, [6 * G, 2 * G, G, snap]))
}

/// m1 = 2 and c = 1, without and with k12 = 0.5.
pub fn machines() -> [Machine; 2] {
    [0.0, 0.5].map(|k12| Machine::new([2.0, 0.0, 0.0, 0.0, k12, 1.0]))
}

/// The sheet that document 01 prints the report of.
pub const SHEET: &[u8] = include_bytes!("../../../examples/paper.sheet");
