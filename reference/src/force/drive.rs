//! What the drive makes of the signal.

use super::Machine;

/// The drive of a checked machine.
#[derive(Clone, Copy, Debug, PartialEq)]
pub enum Drive {
    /// Without damping across the drive the force is u/c.
    Rigid { c: f64 },
    /// Otherwise it is a first order filter of u.
    Filtered { alpha: f64, beta: f64 },
}

impl Drive {
    /// Any damping k12 above 0 filters, also one too small to be seen in alpha.
    pub fn of(machine: &Machine) -> Drive {
        let Machine { k12, c, .. } = *machine;
        if k12 == 0.0 {
            return Drive::Rigid { c };
        }
        let g = 2.0 * k12 + c;
        Drive::Filtered {
            alpha: (2.0 * k12 - c) / g,
            beta: 1.0 / g,
        }
    }
}
