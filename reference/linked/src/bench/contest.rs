//! The clock: batches of the archive and its rivals, in turn.

use super::figures::{Figures, Line};
use std::hint::black_box;
use std::time::{Duration, Instant};

/// A batch takes about this long or longer: far more than a reading of the clock.
pub const BATCH: Duration = Duration::from_millis(1);

/// A call for each input.
type Pass<I, B> = Box<dyn Fn(&[I], &mut B)>;

/// The archive, then its rivals, on the same inputs and the same memory.
pub struct Contest<I, B: ?Sized> {
    inputs: Vec<I>,
    buffer: Box<B>,
    sides: Vec<Pass<I, B>>,
    figures: Figures,
    /// How many passes make a batch.
    passes: usize,
}

/// A contest of whatever inputs.
pub trait Timed {
    /// Times a batch of each side.
    fn round(&mut self, number: usize);
    /// The figures of all rounds.
    fn lines(&self) -> Vec<Line>;
}

impl<I, B: ?Sized> Contest<I, B> {
    /// What is timed, with the samples that a call works through.
    pub fn new(what: String, samples: Option<u64>, inputs: Vec<I>, buffer: Box<B>) -> Self {
        Contest {
            inputs,
            buffer,
            sides: Vec::new(),
            figures: Figures::new(what, samples),
            passes: 1,
        }
    }

    /// The call of the archive. It comes first.
    pub fn archive<A>(mut self, call: impl Fn(&I, &mut B) -> A + 'static) -> Self {
        self.sides.push(pass(call));
        self
    }

    /// A call to hold the archive against, and the part of its time that the
    /// archive may take.
    pub fn against<A>(
        mut self,
        name: &'static str,
        aim: Option<f64>,
        call: impl Fn(&I, &mut B) -> A + 'static,
    ) -> Self {
        self.sides.push(pass(call));
        self.figures.add_rival(name, aim);
        self
    }

    /// Ready to be timed: every side's batch is long enough.
    pub fn ready(mut self) -> Box<dyn Timed>
    where
        Self: 'static,
    {
        while (0..self.sides.len()).any(|side| self.batch(side) < BATCH) {
            self.passes *= 2;
        }
        Box::new(self)
    }

    fn batch(&mut self, side: usize) -> Duration {
        let pass = &self.sides[side];
        // One pass before the clock starts, so that every batch finds its inputs
        // and the buffer in the cache.
        pass(&self.inputs, &mut self.buffer);
        let start = Instant::now();
        for _ in 0..self.passes {
            pass(&self.inputs, &mut self.buffer);
        }
        start.elapsed()
    }
}

impl<I, B: ?Sized> Timed for Contest<I, B> {
    fn round(&mut self, number: usize) {
        let calls = (self.passes * self.inputs.len()) as f64;
        let count = self.sides.len();
        // Another side begins each time, so that none always follows another.
        for side in (0..count).map(|turn| (turn + number) % count) {
            let time = self.batch(side).as_nanos() as f64 / calls;
            self.figures.add_time(side, time);
        }
    }

    fn lines(&self) -> Vec<Line> {
        self.figures.lines()
    }
}

/// The compiler knows no input and needs every answer, so that no call is left
/// out, joined with another or moved out of the loop. An answer is only lent to
/// the black box: large ones are not copied.
fn pass<I, B: ?Sized, A>(call: impl Fn(&I, &mut B) -> A + 'static) -> Pass<I, B> {
    Box::new(move |inputs, buffer| {
        for input in inputs {
            black_box(&call(black_box(input), buffer));
        }
    })
}
