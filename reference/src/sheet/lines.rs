//! The lines of the sheet: what each holds, whole or begun.

use super::span::Span;

/// The most bound sets and the most moves of a sheet.
pub const MOST_SETS: u64 = 16;
pub const MOST_MOVES: u64 = 256;

/// V, A, J or S: 19 digits at most.
const BOUND: Span = Span {
    least: 0,
    most: 9_999_999_999_999_999_999,
    minus: false,
};

/// X: 2^63-1 in size at most, the only number that may have a minus.
const DISPLACEMENT: Span = Span {
    least: 0,
    most: i64::MAX as u64,
    minus: true,
};

/// What a line is.
#[derive(Clone, Copy, Debug, PartialEq, Eq)]
pub enum Line {
    SetCount,
    /// V A J S.
    Set,
    MoveCount,
    /// X and a set number, which is at most the first count.
    Move {
        sets: u64,
    },
}

impl Line {
    /// The line that follows these lines, given by their numbers; none follows
    /// the last move.
    pub fn after(lines: &[Vec<i128>]) -> Option<Line> {
        let Some(sets) = count(lines, 0) else {
            return Some(Line::SetCount);
        };
        let second = 1 + sets as usize;
        if lines.len() < second {
            return Some(Line::Set);
        }
        let Some(moves) = count(lines, second) else {
            return Some(Line::MoveCount);
        };
        let all = second + 1 + moves as usize;
        (lines.len() < all).then_some(Line::Move { sets })
    }

    /// The numbers of this line, if the bytes before its line end are well-formed.
    pub fn numbers(self, bytes: &[u8]) -> Option<Vec<i128>> {
        let (spans, fields) = (self.spans(), fields(bytes));
        if fields.len() != spans.len() {
            return None;
        }
        let pairs = spans.iter().zip(fields);
        pairs.map(|(span, field)| span.number(field)).collect()
    }

    /// Whether such a line can begin with these bytes, which hold no line end.
    pub fn can_begin(self, bytes: &[u8]) -> bool {
        let (spans, fields) = (self.spans(), fields(bytes));
        // Only the last number can still go on: the others have their space.
        let last = fields.len() - 1;
        let ended = |k: usize| spans[k].number(fields[k]).is_some();
        last < spans.len() && (0..last).all(ended) && spans[last].can_begin(fields[last])
    }

    fn spans(self) -> Vec<Span> {
        match self {
            Line::SetCount => vec![up_to(MOST_SETS)],
            Line::Set => vec![BOUND; 4],
            Line::MoveCount => vec![up_to(MOST_MOVES)],
            Line::Move { sets } => vec![DISPLACEMENT, up_to(sets)],
        }
    }
}

/// A count or a set number.
fn up_to(most: u64) -> Span {
    Span {
        least: 1,
        most,
        minus: false,
    }
}

/// The only number of a line, if the line is there.
fn count(lines: &[Vec<i128>], place: usize) -> Option<u64> {
    lines.get(place).map(|numbers| numbers[0] as u64)
}

/// What stands between the spaces; one piece at least.
fn fields(bytes: &[u8]) -> Vec<&[u8]> {
    bytes.split(|byte| *byte == b' ').collect()
}
