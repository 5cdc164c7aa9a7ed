use super::assert_found;
use linked::differential::{Entries, Lent, Proved};
use linked::library::{Machine, Move, TableResult};
use reference::force::{write_rows, Coefficients, Drive};
use reference::planner::Order;
use reference::profile::Profile;

/// What becomes of right rows.
struct Forces(fn(Move, Machine, &mut [f64]));

impl Entries for Forces {
    fn fill_force(&self, motion: Move, machine: Machine, table: &mut Lent<f64>) -> TableResult {
        let result = Proved.fill_force(motion, machine, table);
        if result.rows > 0 {
            let rows = &mut table.places()[..result.rows as usize];
            self.0(motion, machine, rows);
        }
        result
    }
}

/// The last row with its last bit changed.
#[test]
fn a_row_with_one_bit_changed() {
    let wrong = Forces(|_, _, rows| {
        let row = &mut rows[rows.len() - 1];
        *row = f64::from_bits(row.to_bits() ^ 1);
    });
    assert_found(&wrong, "force", "library: place");
}

#[test]
fn a_zero_with_the_other_sign() {
    let wrong = Forces(|_, _, rows| rows[0] = -0.0);
    assert_found(&wrong, "force", "library: place 0 holds -0.0");
}

/// A minus zero of the machine stays one, which only a machine without mass and
/// damping beside k12 shows.
#[test]
fn a_minus_zero_that_is_kept() {
    let wrong = Forces(|motion, machine, rows| {
        let profile = Profile::of(Order::Fourth, &motion);
        let profile = profile.unwrap_or_else(|number| panic!("refused {number}"));
        let (q, drive) = (Coefficients::of(&machine), Drive::of(&machine));
        write_rows(&profile, &q, drive, rows);
    });
    assert_found(&wrong, "force", "holds -0.0");
}
