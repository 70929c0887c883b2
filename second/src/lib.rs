//! A second program for the rules in docs/RULES.md, written from that page alone. It shares no code with the proved crates and
//! computes in other ways: what a rule says is done as it says it, and speed comes last.

pub mod cases;
pub mod dispatcher;
pub mod entry;
pub mod listing;
pub mod number;
pub mod plan;
pub mod rack;
pub mod shift;
pub mod tally;
