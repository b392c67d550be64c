//! Asks cgmath: for the list that `crates/replay` replays, and side by side with Migthumo. See README.md.

pub mod bulk;
pub mod classes;
pub mod entries;
pub mod exact;
pub mod list;
pub mod operations;
pub mod panics;
pub mod places;
pub mod random;
pub mod rule;
pub mod second;
pub mod whole;
pub mod wrong;

#[cfg(feature = "boundary")]
pub mod built;
#[cfg(feature = "boundary")]
pub mod cases;
#[cfg(feature = "boundary")]
pub mod differential;
#[cfg(feature = "boundary")]
pub mod exported;
#[cfg(feature = "boundary")]
pub mod flat;
#[cfg(feature = "boundary")]
pub mod grouping;
#[cfg(feature = "boundary")]
pub mod rows;
#[cfg(feature = "boundary")]
pub mod slips;
#[cfg(feature = "boundary")]
pub mod timed;
