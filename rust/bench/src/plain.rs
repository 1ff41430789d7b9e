//! Both ends, the table and the ledger as one writes them for speed: state in place, marks in
//! single words, nothing allocated for a frame. Tests beside them compare them with the
//! reference.

pub mod card;
pub mod host;
pub mod ledger;
pub mod table;
