//! The second program and the proved library, compared call by call over generated lines, messages and series, and every packed
//! byte.
//!
//! Each part counts what occurred, and gives the first difference as a text that a person can follow.

mod arrivals;
mod bad_blocks;
mod bad_halves;
mod board;
mod board_calls;
mod calls;
mod capture;
mod capture_calls;
mod damage;
mod digits;
mod disorder;
mod exchange;
mod index;
mod quotes;
mod reading;
mod record;
mod rows;
pub mod same;
mod walking;
mod writing;

pub use calls::compare;
