//! The library and the reference answer the same requests, drawn from a seed.
//!
//! The entries stand behind a trait, so that a test can put wrong ones in their
//! place and see them found.

mod compare;
pub mod entries;
pub mod lent;

pub use compare::misfit;
pub use entries::{Entries, Proved};
pub use lent::Lent;

use reference::draw::Random;
use reference::kinds::{Kind, Requests, KINDS};

/// Misfits of a kind that are kept in words.
const MOST_PRINTED: usize = 10;

/// Requests in a hundred that are accepted, at least.
const ACCEPTED_PERCENT: u64 = 40;

/// What came of the calls of one kind.
pub struct Tally {
    pub calls: u64,
    pub accepted: u64,
    pub misfits: u64,
    /// The first misfits, in words.
    pub printed: Vec<String>,
    /// The conditions that no request met.
    pub unmet: Vec<String>,
}

impl Tally {
    pub fn percent(&self) -> f64 {
        100.0 * self.accepted as f64 / self.calls.max(1) as f64
    }

    pub fn good(&self) -> bool {
        self.misfits == 0 && self.unmet.is_empty()
    }
}

/// Compares every kind of call, as many calls as are said for it.
pub fn run<'a>(
    entries: &'a dyn Entries,
    seed: u64,
    calls: impl Fn(&Kind) -> u64 + 'a,
) -> impl Iterator<Item = (&'static Kind, Tally)> + 'a {
    let mut seeds = Random::new(seed);
    KINDS.iter().map(move |kind| {
        let requests = Requests::new(kind, seeds.bits());
        (kind, compared(entries, requests, calls(kind)))
    })
}

fn compared(entries: &dyn Entries, mut requests: Requests, calls: u64) -> Tally {
    let (mut accepted, mut misfits, mut printed) = (0, 0, Vec::new());
    for _ in 0..calls {
        let (request, wanted) = requests.draw(|_, _| true);
        accepted += u64::from(wanted.accepted());
        if let Some(words) = misfit(entries, &request, &wanted) {
            misfits += 1;
            if printed.len() < MOST_PRINTED {
                printed.push(format!("{request:?}\n{words}"));
            }
        }
    }
    let mut unmet = requests.unmet();
    if accepted * 100 < calls * ACCEPTED_PERCENT {
        unmet.push(format!("{ACCEPTED_PERCENT} % accepted"));
    }
    Tally {
        calls,
        accepted,
        misfits,
        printed,
        unmet,
    }
}
