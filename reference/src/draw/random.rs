//! Random numbers with a fixed sequence for each seed.

/// The generator SplitMix64.
pub struct Random {
    state: u64,
}

impl Random {
    pub fn new(seed: u64) -> Random {
        Random { state: seed }
    }

    /// Any 64 bits.
    pub fn bits(&mut self) -> u64 {
        self.state = self.state.wrapping_add(0x9E37_79B9_7F4A_7C15);
        let mut z = self.state;
        z = (z ^ (z >> 30)).wrapping_mul(0xBF58_476D_1CE4_E5B9);
        z = (z ^ (z >> 27)).wrapping_mul(0x94D0_49BB_1331_11EB);
        z ^ (z >> 31)
    }

    /// A number from 0 to `limit - 1`; the limit is above 0.
    pub fn below(&mut self, limit: u64) -> u64 {
        self.bits() % limit
    }

    /// A number from `low` to `high`, both included; `low` if none lies between.
    pub fn between(&mut self, low: u64, high: u64) -> u64 {
        match high.checked_sub(low) {
            Some(u64::MAX) => self.bits(),
            Some(span) => low + self.below(span + 1),
            None => low,
        }
    }

    /// A number from 0 to `largest`, each number of binary digits as likely.
    pub fn log_uniform(&mut self, largest: u64) -> u64 {
        let digits = self.below(u64::from(64 - largest.leading_zeros()) + 1);
        match digits {
            0 => 0,
            _ => self
                .between(1 << (digits - 1), u64::MAX >> (64 - digits))
                .min(largest),
        }
    }

    /// True once in `count` draws.
    pub fn once_in(&mut self, count: u64) -> bool {
        self.below(count) == 0
    }

    /// Any entry of a list.
    pub fn pick<T: Copy>(&mut self, list: &[T]) -> T {
        list[self.below(list.len() as u64) as usize]
    }
}
