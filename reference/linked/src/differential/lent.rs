//! Tables that are lent out of a larger buffer and looked at afterwards.

use super::compare::both;
use std::fmt::Debug;
use std::hint::black_box;

/// Places before and behind the lent ones, which no entry may write.
pub const GUARD: usize = 16;

/// The bits of 2^900, and of a NaN whose pattern any operation on it would change.
const HUGE: u64 = (1_023 + 900) << 52;
const SIGNALING_NAN: u64 = 0x7ff4 << 48;

/// What stands in a table.
pub trait Place: Copy + Debug {
    /// The bits that a place holds before the call: nothing that is ever written.
    fn mark(place: u64) -> u64;
    fn of_bits(bits: u64) -> Self;
    fn bits(self) -> u64;
}

impl Place for i64 {
    fn mark(place: u64) -> u64 {
        (1 << 62) + place
    }

    fn of_bits(bits: u64) -> i64 {
        bits as i64
    }

    fn bits(self) -> u64 {
        self as u64
    }
}

impl Place for f64 {
    /// Far above any force, and at every other place a NaN of its own. The proofs
    /// know one NaN only, so that its pattern stays is seen here alone.
    fn mark(place: u64) -> u64 {
        [HUGE, SIGNALING_NAN][place as usize % 2] | place
    }

    fn of_bits(bits: u64) -> f64 {
        f64::from_bits(bits)
    }

    fn bits(self) -> u64 {
        self.to_bits()
    }
}

impl Place for u8 {
    /// A report holds none of these bytes, and neighbours are not alike.
    fn mark(place: u64) -> u64 {
        0x80 | (place % 127)
    }

    fn of_bits(bits: u64) -> u8 {
        bits as u8
    }

    fn bits(self) -> u64 {
        self.into()
    }
}

/// A table with guard places on both sides; all places are marked.
pub struct Lent<T> {
    /// All places, the guards with them.
    pub buffer: Vec<T>,
}

impl<T: Place> Lent<T> {
    /// A table of so many places.
    pub fn of(places: usize) -> Lent<T> {
        let all = places + 2 * GUARD;
        Lent {
            buffer: (0..all as u64)
                .map(|place| T::of_bits(T::mark(place)))
                .collect(),
        }
    }

    /// What an entry is given.
    pub fn places(&mut self) -> &mut [T] {
        let behind = self.buffer.len() - GUARD;
        &mut self.buffer[GUARD..behind]
    }

    /// The first place that differs from these rows at the front of the table
    /// and marks everywhere else.
    pub fn difference(&mut self, rows: &[u64]) -> Option<String> {
        // The compiler may think that only lent places can have changed.
        let buffer = black_box(&mut self.buffer);
        let written = GUARD..GUARD + rows.len();
        let wanted = |k: usize| match written.contains(&k) {
            true => rows[k - GUARD],
            false => T::mark(k as u64),
        };
        let found = (0..buffer.len()).find(|k| buffer[*k].bits() != wanted(*k))?;
        let place = found as i64 - GUARD as i64;
        let holds = |what: T| format!("place {place} holds {what:?}");
        Some(both(holds(buffer[found]), holds(T::of_bits(wanted(found)))))
    }
}
