//! Inputs drawn from a seed: moves, sets of axes, machines, tables and sheets, for
//! the differential test, the stored vectors and the benchmark alike.

pub mod axes;
pub mod axes_edges;
mod halves;
pub mod machines;
pub mod moves;
pub mod paper;
mod random;
pub mod samples;
pub mod starts;
pub mod texts;

pub use random::Random;
