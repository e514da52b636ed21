//! The derivatives exchange's index values, in the edition of 2015: the frames of I060 and I064, read and written. A contract
//! has 3 bytes (the short form) or 8 (the long one), so that a frame has 29 bytes or 34.

pub mod faults;
pub mod generate;
pub mod message;
pub mod outline;
pub mod places;
pub mod reading;
pub mod seen;
pub mod shown;
pub mod writing;

pub use message::{Kind, Message};
pub use reading::{read, read_at};
pub use writing::write;

/// The derivatives exchange in the edition of 2015.
#[derive(Clone, Copy, Debug, PartialEq, Eq)]
pub struct Derivatives2015;
