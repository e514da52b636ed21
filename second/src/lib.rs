//! An independent second program: the reading, writing, walking and counting of the stock exchange's frames, the board of last
//! quotes, the capture of a line, and the index values of the derivatives exchange, written from the owner's paper and the
//! specifications (docs/RULES.md says what these are) alone, to be run beside the proved program and compared with it. It is
//! ordinary code; nothing here is proved.

pub mod board;
pub mod capture;
pub mod compare;
pub mod derivatives;
pub mod digits;
pub mod exchange;
pub mod faults;
pub mod five;
pub mod gaps;
pub mod generate;
pub mod halves;
pub mod ledger;
pub mod listing;
pub mod messages;
pub mod nineteen;
pub mod numbers;
pub mod outline;
pub mod pieces;
pub mod places;
pub mod random;
pub mod reading;
pub mod refusals;
pub mod seen;
pub mod series;
pub mod six;
pub mod table;
pub mod times;
pub mod twelve;
pub mod units;
pub mod walk;
pub mod writing;

pub use reading::{read, Answer, Message, NoFrame, Refusal};
pub use writing::{write, NotWritten};
