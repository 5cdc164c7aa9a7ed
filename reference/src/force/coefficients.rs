//! The factors of the four profiles.

use super::{Doubled, Machine};

/// The factors of snap, jerk, acceleration and velocity.
#[derive(Clone, Copy, Debug, PartialEq)]
pub struct Coefficients {
    pub q1: f64,
    pub q2: f64,
    pub q3: f64,
    pub q4: f64,
}

impl Coefficients {
    /// The factors of a checked machine.
    pub fn of(machine: &Machine) -> Coefficients {
        let [m1, m2, k1, k2, k12, c] = machine.numbers();
        Coefficients {
            q1: m1 * m2,
            q2: (m1 + m2) * k12 + m1 * k2 + m2 * k1,
            q3: (m1 + m2) * c + k1 * k2 + (k1 + k2) * k12,
            q4: (k1 + k2) * c,
        }
    }

    /// What the drive gets (u in the paper). Halving is left to the end, since
    /// only the doubled numbers are whole.
    pub fn u(&self, row: Doubled) -> f64 {
        let Coefficients { q1, q2, q3, q4 } = *self;
        // Each is 2^51 at most: every cast is exact, and 0 becomes plus zero.
        let [d2, j2, a2, v2] = [row.d2, row.j2, row.a2, row.v2].map(|x| x as f64);
        (q1 * d2 + q2 * j2 + q3 * a2 + q4 * v2) * 0.5
    }
}
