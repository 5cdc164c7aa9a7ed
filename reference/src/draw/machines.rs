//! Machines: in range, at its ends, and outside of it.

use super::{paper, Random};
use crate::force::{Machine, LARGEST_NUMBER, LEAST_STIFFNESS};

/// The least number above 0.
pub const LEAST: f64 = f64::from_bits(1);

/// The next number above the largest, and the next below the least stiffness.
pub const ABOVE_LARGEST: f64 = f64::from_bits(LARGEST_NUMBER.to_bits() + 1);
pub const BELOW_STIFFNESS: f64 = f64::from_bits(LEAST_STIFFNESS.to_bits() - 1);

/// Numbers that may stand at some place, or at none.
const EDGES: [f64; 16] = [
    0.0,
    -0.0,
    LEAST,
    f64::MIN_POSITIVE,
    LEAST_STIFFNESS,
    BELOW_STIFFNESS,
    LARGEST_NUMBER,
    ABOVE_LARGEST,
    -1.0,
    -LEAST,
    f64::MAX,
    f64::INFINITY,
    f64::NEG_INFINITY,
    // No numbers: quiet, signalling, and with all bits set.
    f64::NAN,
    f64::from_bits(0x7FF0_0000_0000_0001),
    f64::from_bits(u64::MAX),
];

/// Row 2 has a part of the snap and one of the jerk, and half of the latter lies
/// between two floats: it rounds otherwise alone than in the sum.
const TWO_HALVES: [f64; 6] = [1.0, 3.0 * LEAST, 0.0, LEAST, 0.0, 1.0];

/// Any machine; one in eight is outside the range.
pub fn any(random: &mut Random) -> Machine {
    let [rigid, filtered] = paper::machines().map(|machine| machine.numbers());
    let mut numbers = match random.below(8) {
        0 => random.pick(&[rigid, filtered, TWO_HALVES]),
        1 => [0; 6].map(|_| random.between(1, 9) as f64),
        2 | 3 => balanced(random),
        4 => [0; 6].map(|_| float(-20, 19, random)),
        5 => tiny(random),
        _ => only_stiff(random),
    };
    if random.once_in(2) {
        // The drive is rigid.
        numbers[4] = random.pick(&[0.0, -0.0]);
    }
    if random.once_in(5) {
        numbers[random.below(6) as usize] = random.pick(&EDGES);
    }
    Machine::new(numbers)
}

/// A number from 2^low up to 2^(high+1).
fn float(low: i64, high: i64, random: &mut Random) -> f64 {
    let exponent = 1_023 + low + random.below((high - low + 1) as u64) as i64;
    f64::from_bits((exponent as u64) << 52 | random.bits() >> 12)
}

/// Masses, dampings and stiffness so far apart that none of the four profiles
/// outweighs the others: then every order of the sums has its own roundings.
fn balanced(random: &mut Random) -> [f64; 6] {
    let time = random.below(8) as i64;
    let exponents = [time, time, 0, 0, 0, -time];
    exponents.map(|exponent| float(exponent - 1, exponent, random))
}

/// Numbers, or products of two, that are too small to have all their digits.
fn tiny(random: &mut Random) -> [f64; 6] {
    let mut numbers = [0; 6].map(|_| match random.once_in(2) {
        true => float(-545, -500, random),
        false => f64::from_bits(1 + random.log_uniform((1 << 52) - 2)),
    });
    numbers[5] = float(-20, 3, random);
    if random.once_in(2) {
        // Then the jerk can decide, whose doubled values can be odd.
        numbers[4] = float(-3, 3, random);
    }
    numbers
}

/// No mass and no damping but k12. Every row is a zero, whose sign tells the
/// signs of all products; with a c of 1 or more alpha is negative, so that a
/// minus zero comes through the filter.
fn only_stiff(random: &mut Random) -> [f64; 6] {
    let mut numbers = [0; 6].map(|_| random.pick(&[0.0, -0.0]));
    numbers[4] = float(-3, -2, random);
    numbers[5] = float(0, 2, random);
    numbers
}
