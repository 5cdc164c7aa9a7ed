//! How far a text can be the beginning of a sheet.

use super::contents::{Sheet, SheetMove};
use super::lines::Line;

/// A text as far as its line ends: the numbers of its lines, and the bytes that
/// no line end follows.
pub struct Parts<'a> {
    pub lines: Vec<Vec<i128>>,
    pub open: &'a [u8],
}

impl Parts<'_> {
    /// The parts of a text, if every line that has ended is well-formed.
    pub fn of(text: &[u8]) -> Option<Parts<'_>> {
        let mut pieces: Vec<&[u8]> = text.split(|byte| *byte == b'\n').collect();
        // There is one piece more than there are line ends.
        let open = pieces.pop()?;
        let mut lines = Vec::new();
        for piece in pieces {
            lines.push(Line::after(&lines)?.numbers(piece)?);
        }
        Some(Parts { lines, open })
    }

    /// The line that the next byte is part of; none after the last line.
    pub fn next_line(&self) -> Option<Line> {
        Line::after(&self.lines)
    }

    /// Whether the text is a sheet.
    pub fn is_whole(&self) -> bool {
        self.next_line().is_none() && self.open.is_empty()
    }

    /// The sheet of a whole text.
    pub fn sheet(&self) -> Sheet {
        // Spans keep bounds and set numbers in u64, displacements in i64.
        let set = |numbers: &Vec<i128>| [0, 1, 2, 3].map(|k| numbers[k] as u64);
        let a_move = |numbers: &Vec<i128>| SheetMove {
            displacement: numbers[0] as i64,
            set: numbers[1] as u64,
        };
        let sets = self.lines[0][0] as usize;
        Sheet {
            sets: self.lines[1..=sets].iter().map(set).collect(),
            moves: self.lines[sets + 2..].iter().map(a_move).collect(),
        }
    }
}

/// Whether some sheet begins with exactly these bytes.
pub fn can_begin(bytes: &[u8]) -> bool {
    Parts::of(bytes).is_some_and(|parts| match parts.next_line() {
        Some(line) => line.can_begin(parts.open),
        None => parts.open.is_empty(),
    })
}

/// The longest beginning of a sheet that the text has: the byte after it, or
/// the end, is the first that cannot go on.
pub fn longest_beginning(text: &[u8]) -> &[u8] {
    let begins = |length: &usize| can_begin(&text[..*length]);
    // Whole lines first, then byte by byte. Every shorter part of a beginning is
    // one too, so that the last whole line can be found by halving.
    let line_ends = (1..=text.len()).filter(|length| text[length - 1] == b'\n');
    let lengths: Vec<usize> = [0].into_iter().chain(line_ends).collect();
    let lines = lengths[lengths.partition_point(begins) - 1];
    let more = (lines..=text.len()).take_while(begins).last();
    &text[..more.unwrap_or(lines)]
}
