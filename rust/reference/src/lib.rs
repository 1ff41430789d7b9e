//! An independent implementation of the rules in plain Rust, to compare the
//! proved library with. It favours being easy to read over being fast, shares
//! no code with the proved one and assumes nothing about the bytes it is given.
//!
//! The rules say nothing of states that no run reaches. There both ends go by the
//! words that a caller of the library keeps, and what such a state's answer shows
//! is that the library treats any words as its definitions say, not that two
//! readers of the rules agree.

#![forbid(unsafe_code)]

pub mod aimed;
pub mod book;
pub mod calls;
pub mod card;
pub mod card_calls;
pub mod cases;
pub mod demand;
pub mod ends;
pub mod faults;
pub mod host;
pub mod ledger;
pub mod ledger_lists;
pub mod list;
pub mod marks;
pub mod premises;
pub mod refusal;
pub mod replay;
pub mod restarts;
pub mod rng;
pub mod script;
pub mod settings;
pub mod simulator;
pub mod table;
pub mod table_lists;
pub mod texts;
pub mod traffic;
pub mod windows;
pub mod wire;
