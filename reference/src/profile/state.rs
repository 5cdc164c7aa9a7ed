//! The running sums: four of the snap, or three of the jerk.

/// Jerk, acceleration, velocity and position at one sample.
///
/// 64 bits are enough: the bounds hold the first three to 2^50, and a position lies
/// between the start and the end, which are at most 2^60 in size.
#[derive(Clone, Copy, Debug, Default, PartialEq, Eq)]
pub struct State {
    pub jerk: i64,
    pub acceleration: i64,
    pub velocity: i64,
    pub position: i64,
}

impl State {
    /// The state one sample later. Each value grows by the next higher
    /// derivative as it was, not as it becomes.
    pub fn next(self, snap: i64) -> State {
        State {
            jerk: self.jerk + snap,
            acceleration: self.acceleration + self.jerk,
            velocity: self.velocity + self.acceleration,
            position: self.position + self.velocity,
        }
    }
}
