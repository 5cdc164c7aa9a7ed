//! The machine as it is sent, and the refusal of its numbers.

/// The most that each number of a machine may be: 2^20.
pub const LARGEST_NUMBER: f64 = 1_048_576.0;

/// The least stiffness: 2^-20.
pub const LEAST_STIFFNESS: f64 = 1.0 / LARGEST_NUMBER;

/// The masses m1 and m2, the dampings k1, k2 and k12, and the stiffness c. In C's
/// layout, as a move is.
#[repr(C)]
#[derive(Clone, Copy, Debug)]
pub struct Machine {
    pub m1: f64,
    pub m2: f64,
    pub k1: f64,
    pub k2: f64,
    pub k12: f64,
    pub c: f64,
}

impl Machine {
    /// The machine of m1, m2, k1, k2, k12 and c.
    pub fn new([m1, m2, k1, k2, k12, c]: [f64; 6]) -> Machine {
        Machine {
            m1,
            m2,
            k1,
            k2,
            k12,
            c,
        }
    }

    /// m1, m2, k1, k2, k12 and c.
    pub fn numbers(&self) -> [f64; 6] {
        [self.m1, self.m2, self.k1, self.k2, self.k12, self.c]
    }

    /// The machine with its zeros as they are read; nothing if a number is
    /// outside its range (refusal 10).
    pub fn checked(&self) -> Option<Machine> {
        let read = Machine::new(self.numbers().map(without_minus_zero));
        let least = [0.0, 0.0, 0.0, 0.0, 0.0, LEAST_STIFFNESS];
        // What is no number lies in no range, and infinity is above 2^20.
        let inside = |(x, least): (f64, f64)| (least..=LARGEST_NUMBER).contains(&x);
        let all = read.numbers().into_iter().zip(least).all(inside);
        all.then_some(read)
    }
}

/// Both zeros compare equal to 0; every other number stays.
fn without_minus_zero(x: f64) -> f64 {
    if x == 0.0 {
        return 0.0;
    }
    x
}
