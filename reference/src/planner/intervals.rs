//! The four intervals a, b, c and e of the paper, and the searches behind them. In
//! third order they follow the same rules with a = 0 and J1 = J.
//!
//! Nothing here passes 128 bits. W is at most 2^60 and each bound at most 2^50,
//! so a is at most 2^15, b at most 2^20, c at most 2^31 and e at most 2^60. In a
//! search the number before the last doubling fails, so the largest product
//! tried is below 16·2^60, or it is the one at n = 1, below 2^51·(2^15+1)^2.

use super::{Move, Order};
use crate::least::least;

/// The least number found by each search, in the paper's order.
#[derive(Clone, Copy, Debug, PartialEq, Eq)]
pub struct Searches {
    pub a: [u128; 4],
    pub b: [u128; 3],
    pub c: [u128; 2],
    pub e: [u128; 1],
}

impl Searches {
    /// All ten, numbered 0 to 9: a by W V A J, b by W V A, c by W V, e by W.
    pub fn all(&self) -> Vec<u128> {
        [&self.a[..], &self.b, &self.c, &self.e].concat()
    }
}

/// The intervals with the values that carry each rounding on to the next one. In
/// third order a and its searches are 0, and J1 is J.
#[derive(Clone, Copy, Debug, PartialEq, Eq)]
pub struct Intervals {
    pub a: u128,
    pub b: u128,
    pub c: u128,
    pub e: u128,
    /// J1: the smaller of J and S·a.
    pub j1: u128,
    /// A1: the smaller of A and J1·b.
    pub a1: u128,
    /// V1: the smaller of V and A1·c.
    pub v1: u128,
    pub searches: Searches,
}

impl Intervals {
    /// The intervals of a move, or the one of the refusals 1 to 6 and 14 that applies.
    pub fn of(order: Order, motion: &Move) -> Result<Intervals, u8> {
        if let Some(number) = motion.range_refusal(order) {
            return Err(number);
        }
        let bounds = Bounds::of(motion);
        let (for_a, a, j1) = bounds.beginning(order);
        let for_b = bounds.searches_b(a, j1);
        let b = smallest(&for_b).max(a);
        let a1 = bounds.a.min(j1 * b);
        let for_c = bounds.searches_c(a + b, a1);
        let c = smallest(&for_c).max(a + b);
        let v1 = bounds.v.min(a1 * c);
        let for_e = [least(|n| v1 * n >= bounds.w)];
        let e = smallest(&for_e).max(a + b + c);
        let searches = Searches {
            a: for_a,
            b: for_b,
            c: for_c,
            e: for_e,
        };
        Ok(Intervals {
            a,
            b,
            c,
            e,
            j1,
            a1,
            v1,
            searches,
        })
    }

    /// The number of samples (N in the paper).
    pub fn samples(&self) -> u128 {
        self.a + self.b + self.c + self.e
    }

    /// a, b, c and e, which fit 64 bits.
    pub fn all(&self) -> [u64; 4] {
        [self.a, self.b, self.c, self.e].map(|n| n as u64)
    }
}

/// W and the bounds V, A, J and S, wide enough for every product.
struct Bounds {
    w: u128,
    v: u128,
    a: u128,
    j: u128,
    s: u128,
}

impl Bounds {
    fn of(motion: &Move) -> Bounds {
        Bounds {
            w: motion.w(),
            v: motion.velocity.into(),
            a: motion.acceleration.into(),
            j: motion.jerk.into(),
            s: motion.snap.into(),
        }
    }

    /// The searches for a, a itself, and J1.
    fn beginning(&self, order: Order) -> ([u128; 4], u128, u128) {
        if order == Order::Third {
            return ([0; 4], 0, self.j);
        }
        let searches = self.searches_a();
        let a = smallest(&searches);
        (searches, a, self.j.min(self.s * a))
    }

    fn searches_a(&self) -> [u128; 4] {
        let s = self.s;
        [
            least(|n| 8 * s * n.pow(4) >= self.w),
            least(|n| 2 * s * n.pow(3) >= self.v),
            least(|n| s * n.pow(2) >= self.a),
            least(|n| s * n >= self.j),
        ]
    }

    fn searches_b(&self, a: u128, j1: u128) -> [u128; 3] {
        [
            least(|n| 2 * j1 * n * (a + n).pow(2) >= self.w),
            least(|n| j1 * n * (a + n) >= self.v),
            least(|n| j1 * n >= self.a),
        ]
    }

    /// `ab` is a+b.
    fn searches_c(&self, ab: u128, a1: u128) -> [u128; 2] {
        [
            least(|n| a1 * n * (ab + n) >= self.w),
            least(|n| a1 * n >= self.v),
        ]
    }
}

fn smallest(numbers: &[u128]) -> u128 {
    numbers.iter().copied().fold(u128::MAX, u128::min)
}
