//! A pointer analyser written apart from the proved one, straight from the rules, and what the two are
//! compared with. No code is shared with the proved crates; `fast` follows their algorithms, for speed alone.

pub mod args;
pub mod book;
pub mod compare;
pub mod fast;
pub mod generate;
pub mod grammar;
pub mod host;
pub mod journal;
pub mod known;
pub mod least;
pub mod lexeme;
pub mod list;
pub mod merge;
pub mod pile;
pub mod random;
pub mod report;
pub mod run;
pub mod shrink;
pub mod unit;
