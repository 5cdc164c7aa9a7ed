use super::assert_found;
use linked::differential::lent::{Place, GUARD};
use linked::differential::{Entries, Lent, Proved};
use linked::library::{Move, TableResult};

const REFERENCE: [&str; 2] = ["reference", "third_reference"];
const ALL: [&str; 4] = ["positions", "third_positions", REFERENCE[0], REFERENCE[1]];

/// N, and the answer and the table, which were right.
type Spoil = fn(u64, &mut TableResult, &mut Lent<i64>);

struct Tables(Spoil);

impl Entries for Tables {
    fn fill_positions(&self, motion: Move, table: &mut Lent<i64>) -> TableResult {
        let mut result = Proved.fill_positions(motion, table);
        self.0(Proved.plan_move(motion).samples, &mut result, table);
        result
    }

    fn fill_reference(&self, motion: Move, table: &mut Lent<i64>) -> TableResult {
        let mut result = Proved.fill_reference(motion, table);
        self.0(Proved.plan_move(motion).samples, &mut result, table);
        result
    }

    fn fill_positions_third(&self, motion: Move, table: &mut Lent<i64>) -> TableResult {
        let mut result = Proved.fill_positions_third(motion, table);
        self.0(Proved.plan_third(motion).samples, &mut result, table);
        result
    }

    fn fill_reference_third(&self, motion: Move, table: &mut Lent<i64>) -> TableResult {
        let mut result = Proved.fill_reference_third(motion, table);
        self.0(Proved.plan_third(motion).samples, &mut result, table);
        result
    }
}

/// The fault is found in each of these kinds.
fn assert_in(kinds: &[&str], words: &str, spoil: Spoil) {
    for kind in kinds {
        assert_found(&Tables(spoil), kind, words);
    }
}

/// One row more, where the table has a place for it.
#[test]
fn a_row_too_many() {
    assert_in(&ALL, "library: place", |_, result, table| {
        let after = table.places().get_mut(result.rows as usize);
        if let (0, Some(place)) = (result.refusal, after) {
            *place = 0;
        }
    });
}

/// One row more, also where the table ends before it.
#[test]
fn a_row_past_the_table() {
    assert_in(&ALL, "library: place", |_, result, table| {
        let rows = result.rows as usize;
        if result.refusal == 0 && rows == table.places().len() {
            table.buffer[GUARD + rows] = 0;
        }
    });
}

/// The first row is written before the table is found too short.
#[test]
fn a_row_at_a_refusal() {
    assert_in(&ALL, "library: place 0 holds 0", |_, result, table| {
        if let (8, Some(place)) = (result.refusal, table.places().first_mut()) {
            *place = 0;
        }
    });
}

/// The number of the last row in place of the number of rows.
#[test]
fn a_number_of_rows_that_is_one_less() {
    assert_in(&ALL, "from field 1 on", |_, result, _| {
        result.rows = result.rows.saturating_sub(1);
    });
}

/// The last place keeps what it held: of reference rows, rows 0 to N only.
#[test]
fn a_last_row_that_is_left_out() {
    assert_in(&ALL, "library: place", |_, result, table| {
        if let Some(last) = result.rows.checked_sub(1) {
            let place = GUARD + last as usize;
            table.buffer[place] = i64::of_bits(i64::mark(place as u64));
        }
    });
}

/// With just enough places the table is refused.
#[test]
fn a_place_more_that_is_asked_for() {
    assert_in(&ALL, "library: refusal 8", |_, result, table| {
        if result.refusal == 0 && result.rows == table.places().len() as u64 {
            result.refusal = 8;
        }
    });
}

/// N+1 places are enough for the reference rows, as they are for positions.
#[test]
fn a_place_less_that_is_asked_for() {
    assert_in(&REFERENCE, "reference: refusal 8", |n, result, table| {
        if result.refusal == 8 && table.places().len() as u64 == n + 1 {
            (result.refusal, result.rows) = (0, n + 1);
        }
    });
}

/// Twice the position at the sample itself, without the delay.
#[test]
fn a_reference_row_that_is_half_a_sample_early() {
    assert_in(&REFERENCE, "library: place", |_, result, table| {
        let mut position = 0;
        for row in &mut table.places()[..result.rows as usize] {
            position = *row - position;
            *row = 2 * position;
        }
    });
}

/// The position before sample 0 is taken for 0, so that row 0 has the start once.
#[test]
fn a_start_that_is_added_once() {
    assert_in(&REFERENCE, "library: place 0 holds", |_, result, table| {
        if result.rows > 0 {
            table.places()[0] /= 2;
        }
    });
}

/// Every row is read from the start: row 0 is the start, or twice.
#[test]
fn a_start_that_is_left_out() {
    assert_in(&ALL, "library: place 0 holds 0", |_, result, table| {
        let rows = &mut table.places()[..result.rows as usize];
        let start = rows.first().copied().unwrap_or(0);
        rows.iter_mut().for_each(|row| *row -= start);
    });
}

/// The position after N is taken for 0, so that the last row is half of it.
#[test]
fn a_last_position_that_is_not_held() {
    assert_in(&REFERENCE, "library: place", |_, result, table| {
        if let Some(last) = result.rows.checked_sub(1) {
            table.places()[last as usize] /= 2;
        }
    });
}
