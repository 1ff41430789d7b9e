//! Both ends of a DG/RDMA pair over the proved static library: a charging [`Host`], a
//! [`PlainHost`] that answers as it does, a [`Table`] of cards at one host, a [`Card`], a
//! subscriber [`Ledger`], a [`Replay`] from fragments, the layout of a frame, the refusals,
//! and the count of marks by which a window moves.
//! Nothing is allocated and nothing is kept between calls but what each of these owns;
//! what else a call reads or writes is lent to it.
//!
//! ```
//! use logwhisker::{Answer, Card, Chosen, Host};
//!
//! let mut slots = vec![0; 64 * 1_500];
//! let mut memory = vec![0; 4_096];
//! let mut card = Card::open(2, 1, 1_500, &slots)?;
//! let mut host = Host::open(1, 2)?;
//!
//! let transaction = card.open_transaction(1, 64, 7)?;
//! card.add(&mut slots, transaction, 0, b"units")?;
//! card.seal(&slots)?;
//! let Chosen::Frame(frame) = card.choose(&slots, &[])? else { unreachable!() };
//! let answer = host.receive(frame, &mut memory);
//! assert!(matches!(answer, Answer::Accepted { completed: 1, .. }));
//! if let Some(acknowledgement) = host.acknowledge(&answer, 0) {
//!     card.read(&acknowledgement)?;
//! }
//! # Ok::<(), logwhisker::Refusal>(())
//! ```

#![deny(unsafe_code)]

mod card;
mod host;
mod layout;
mod ledger;
mod plain;
pub mod raw;
mod refusal;
mod replay;
mod table;

pub use card::{Card, Chosen};
pub use host::{Answer, Description, Host, OpenTransaction};
pub use layout::{
    Layout, ack_count, ack_start, data_bytes, destination, flags, frame_number, layout_refusal,
    message_count, source,
};
pub use ledger::Ledger;
pub use plain::PlainHost;
pub use raw::trailing_ones;
pub use refusal::{Class, Refusal, refusal_class};
pub use replay::{Replay, Totals};
pub use table::{Registered, Table};

/// Bytes of a frame header, and of an acknowledgement.
pub const FRAME_HEADER: usize = 10;
/// The longest frame that is read.
pub const LONGEST_FRAME: usize = 9_000;
/// The longest text that a host is stored as; the shortest has 47 bytes.
pub const LONGEST_TEXT: usize = 1_103;
/// Cards of a table at most.
pub const TABLE_CARDS: usize = 16;
/// Subscribers of a ledger.
pub const SUBSCRIBERS: u32 = 1_024;
/// Bytes of a reading: subscriber and counter.
pub const READING: usize = 8;
/// Slots of a card's buffer; it has this many times the frame limit in bytes.
pub const SLOTS: usize = 64;
