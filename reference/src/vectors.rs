//! Stored vectors: requests, and what the reference answers.

mod paper;
mod store;
mod text;

use crate::draw::Random;
use crate::kinds::{Kind, Requests, KINDS};
use crate::request::{Outcome, Request};
use std::path::Path;

/// Any fixed number would do; the conditions say whether it is good enough.
const SEED: u64 = 2003;

/// The most bytes that all stored vectors may have together.
const MOST_BYTES: usize = 500_000;

/// The most bytes that a request takes which meets no condition.
const FEW_BYTES: usize = 2_000;

/// The most bytes that a request takes, whatever it is for: no long texts but
/// those of zeros are stored.
const MANY_BYTES: usize = 40_000;

/// The requests and the answers, as bytes: a sheet need not be text.
#[derive(Default)]
pub struct Files {
    pub stdin: Vec<u8>,
    pub stdout: Vec<u8>,
}

impl Files {
    fn bytes(&self) -> usize {
        self.stdin.len() + self.stdout.len()
    }

    fn of(request: &Request, outcome: &Outcome) -> Files {
        Files {
            stdin: text::input(request, outcome),
            stdout: text::output(request, outcome),
        }
    }

    fn add(&mut self, other: Files) {
        self.stdin.extend(other.stdin);
        self.stdout.extend(other.stdout);
    }
}

/// Document 01's own values, then requests of each kind; or what they lack.
pub fn files() -> Result<Files, String> {
    let mut files = Files::default();
    for request in paper::requests() {
        files.add(Files::of(&request, &request.expected()));
    }
    let mut seeds = Random::new(SEED);
    for kind in &KINDS {
        files.add(drawn(kind, seeds.bits())?);
    }
    match files.bytes() {
        0..=MOST_BYTES => Ok(files),
        bytes => Err(format!("{bytes} bytes, at most {MOST_BYTES} are stored")),
    }
}

fn drawn(kind: &'static Kind, seed: u64) -> Result<Files, String> {
    let mut requests = Requests::new(kind, seed);
    let mut files = Files::default();
    let mut left = kind.stored;
    while left > 0 {
        let most = match requests.settled() {
            true => FEW_BYTES,
            false => MANY_BYTES,
        };
        left -= usize::from(requests.settled());
        let fits = |request: &_, outcome: &_| Files::of(request, outcome).bytes() <= most;
        let (request, outcome) = requests.draw(fits);
        files.add(Files::of(&request, &outcome));
    }
    match &requests.unmet()[..] {
        [] => Ok(files),
        unmet => Err(format!("{}: not met: {}", kind.name, unmet.join("; "))),
    }
}

/// Stores the vectors in a folder.
pub fn write(folder: &Path) -> Result<(), String> {
    store::write(folder, &files()?)
}

/// Whether the folder holds the vectors that the reference makes.
pub fn check(folder: &Path) -> Result<(), String> {
    store::check(folder, &files()?)
}
