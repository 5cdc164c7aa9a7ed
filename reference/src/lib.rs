//! A second implementation of the paper's rules: the planner, the profiles, the
//! forces and the route sheet.
//!
//! It exists to be compared with and shares no code with the program. Requests
//! are drawn for every entry; the command `vectors` stores some of them with the
//! answers, and `linked` sends them to the proved library.

pub mod conditions;
pub mod draw;
pub mod force;
pub mod kinds;
pub mod least;
pub mod planner;
pub mod profile;
pub mod request;
pub mod sheet;
pub mod vectors;
