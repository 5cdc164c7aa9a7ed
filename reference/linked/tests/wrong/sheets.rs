use super::assert_found;
use linked::differential::{Entries, Lent, Proved};
use linked::library::{SheetResult, REPORT_BYTES};

/// Lines counted from 0.
struct LineBefore;

impl Entries for LineBefore {
    fn read_sheet(&self, text: &[u8]) -> SheetResult {
        let mut result = Proved.read_sheet(text);
        result.line = result.line.saturating_sub(1);
        result
    }
}

#[test]
fn a_line_that_is_one_less() {
    assert_found(&LineBefore, "sheet", "refusal 11, from field 1 on");
}

/// A set number in the last place, which only the longest sheets use.
struct UnusedPlace;

impl Entries for UnusedPlace {
    fn read_sheet(&self, text: &[u8]) -> SheetResult {
        let mut result = Proved.read_sheet(text);
        result.moves[255].set = result.moves[255].set.max(1);
        result
    }
}

#[test]
fn an_unused_place_that_is_not_0() {
    assert_found(&UnusedPlace, "sheet", "from field 579 on [1]");
}

/// A zero byte after the report.
struct ZeroByte;

impl Entries for ZeroByte {
    fn report(&self, text: &[u8], buffer: &mut Lent<u8>) -> usize {
        let count = Proved.report(text, buffer);
        buffer.places()[count.min(REPORT_BYTES - 1)] = 0;
        count
    }
}

#[test]
fn a_byte_after_the_report() {
    assert_found(&ZeroByte, "sheet", "library: place");
}
