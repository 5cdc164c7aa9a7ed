//! The route sheet: bound sets and moves as text, and the report about them.

mod beginning;
mod contents;
mod lines;
mod report;
mod span;

pub use beginning::{can_begin, longest_beginning, Parts};
pub use contents::{render, Sheet, SheetMove};
pub use lines::{Line, MOST_MOVES, MOST_SETS};
pub use report::report;

/// The most bytes that a sheet may have (row 12).
pub const LARGEST_TEXT: usize = 65_535;

/// Why a sheet is turned away.
#[derive(Clone, Copy, Debug, PartialEq, Eq)]
pub enum SheetRefusal {
    /// Row 11, with the line of the first byte (or end) that cannot go on.
    Malformed { line: u64 },
    /// Row 12. It comes first, since such a sheet is not read further.
    TooLong,
}

/// The sheet that the text is, or the refusal of it.
pub fn read(text: &[u8]) -> Result<Sheet, SheetRefusal> {
    if text.len() > LARGEST_TEXT {
        return Err(SheetRefusal::TooLong);
    }
    let whole = Parts::of(text).filter(Parts::is_whole);
    whole.map(|parts| parts.sheet()).ok_or_else(|| {
        let line = line_after(longest_beginning(text));
        SheetRefusal::Malformed { line }
    })
}

/// One more than the line ends in these bytes.
fn line_after(bytes: &[u8]) -> u64 {
    let line_ends = bytes.iter().filter(|byte| **byte == b'\n');
    1 + line_ends.count() as u64
}
