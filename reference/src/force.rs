//! The force rows of a move on a machine. The entry takes the move's own
//! numbers and the machine's, checks them and plans inside.
//!
//! Every float operation is rounded once, in the order that the paper states:
//! nothing is fused, and no sum or product is put in another order.

mod coefficients;
mod doubled;
mod drive;
mod force_table;
mod machine;

pub use coefficients::Coefficients;
pub use doubled::Doubled;
pub use drive::Drive;
pub use force_table::{force_table, write_rows};
pub use machine::{Machine, LARGEST_NUMBER, LEAST_STIFFNESS};
