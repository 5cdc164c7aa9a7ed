//! The reference beside the proved library.

pub mod bench;
pub mod differential;
pub mod library;
