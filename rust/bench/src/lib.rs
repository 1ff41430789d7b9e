//! What the benchmarks are made of: both ends, the table, the ledger and the replay in plain
//! Rust written for speed, the frames that hosts are timed on, the steps that cards are timed
//! on, the runs of tables and of ledgers, and both kinds of ends behind the same boundary.

#![forbid(unsafe_code)]

pub mod ends;
pub mod ledgers;
pub mod plain;
pub mod replay;
pub mod shapes;
pub mod steps;
pub mod tables;
