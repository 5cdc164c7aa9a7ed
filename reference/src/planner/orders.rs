//! The two orders of a plan.

/// Which derivative is switched: jerk (document 02, request 3) or snap. The number is
/// how many intervals there are, and how many of V, A, J and S are read.
#[derive(Clone, Copy, Debug, PartialEq, Eq)]
pub enum Order {
    Third = 3,
    Fourth = 4,
}

impl Order {
    /// The snap and the jerk, one of which is switched. In fourth order the jerk is the
    /// sum of snaps; in third order there is no snap.
    pub fn highest(self, switched: i64, sum: i64) -> [i64; 2] {
        match self {
            Order::Third => [0, switched],
            Order::Fourth => [switched, sum],
        }
    }
}
