//! What the trials of the planner share: tables built from numbers, calls made on either side, and
//! the stored calls with their answers.
#![forbid(unsafe_code)]
#![warn(missing_docs)]

pub mod calls;
pub mod cases;
pub mod guarded;
pub mod stored;
pub mod tables;
pub mod ties;

pub use reference::random::Random;
