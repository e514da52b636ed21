//! The wrapper on the edges of docs/RULES.md, with what is expected worked out by hand.

mod bad_halves;
mod board;
mod capture;
mod digits;
mod frames;
mod index;
mod ledger;
mod reading;
mod units;
mod walking;
mod writing;
