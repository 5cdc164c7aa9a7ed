//! What a sheet says, and its text.

use crate::planner::Move;

/// The bound sets and the moves, in the order of their lines.
#[derive(Clone, Debug, PartialEq, Eq)]
pub struct Sheet {
    /// V, A, J and S of each set.
    pub sets: Vec<[u64; 4]>,
    pub moves: Vec<SheetMove>,
}

/// A displacement, and the number of a set, counted from 1.
#[derive(Clone, Copy, Debug, PartialEq, Eq)]
pub struct SheetMove {
    pub displacement: i64,
    pub set: u64,
}

impl Sheet {
    /// The moves as the planner takes them.
    pub fn motions(&self) -> impl Iterator<Item = Move> + '_ {
        self.moves
            .iter()
            .map(|entry| Move::new(entry.displacement, self.sets[entry.set as usize - 1]))
    }
}

/// The text of a sheet.
pub fn render(sheet: &Sheet) -> Vec<u8> {
    let set = |[v, a, j, s]: &[u64; 4]| format!("{v} {a} {j} {s}\n");
    let a_move = |entry: &SheetMove| format!("{} {}\n", entry.displacement, entry.set);
    let sets: String = sheet.sets.iter().map(set).collect();
    let moves: String = sheet.moves.iter().map(a_move).collect();
    let (first, second) = (sheet.sets.len(), sheet.moves.len());
    format!("{first}\n{sets}{second}\n{moves}").into_bytes()
}
