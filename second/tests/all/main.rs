//! The edges of docs/RULES.md and the specification's worked examples, and tests of each module. One program, to keep builds small.

mod board;
mod build;
mod capture;
mod comparing;
mod derivatives;
mod digits;
mod edges;
mod gaps;
mod generating;
mod ledger;
mod listing;
mod messages;
mod model;
mod numbers;
mod places;
mod reading;
mod refusals;
mod table;
mod walking;
mod worked;
mod writing;
