//! The whole numbers of one row.

/// The four profiles at a row, delayed by 2, 1½, 1 and ½ samples so that they
/// fit together. A half sample is the mean of two: twice that is whole.
///
/// The direction of the move is in them already.
#[derive(Clone, Copy, Debug, PartialEq, Eq)]
pub struct Doubled {
    /// Twice the snap two samples before.
    pub d2: i64,
    /// The jerk one sample and two samples before.
    pub j2: i64,
    /// Twice the acceleration one sample before.
    pub a2: i64,
    /// The velocity here and one sample before.
    pub v2: i64,
}
