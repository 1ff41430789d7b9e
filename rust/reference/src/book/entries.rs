//! What the book holds: messages, frames and transactions by their counts, and what it
//! knows of a hand-out and owes to an arrival.

use crate::host::Terms;

/// A message that was added.
#[derive(Clone, Debug, PartialEq, Eq)]
pub struct Message {
    /// The count of its transaction.
    pub transaction: usize,
    /// How many of its transaction were added before it.
    pub index: u32,
    /// Where its data is written.
    pub address: u32,
    /// Its data.
    pub data: Vec<u8>,
}

/// A sealed frame.
#[derive(Clone, Debug, PartialEq, Eq)]
pub struct Frame {
    /// Its messages in order.
    pub messages: Vec<Message>,
    /// A copy has reached the host.
    pub accepted: bool,
    /// An acknowledgement of it was read while it was not released.
    pub acknowledged: bool,
}

/// An opened transaction.
#[derive(Clone, Debug, PartialEq, Eq)]
pub struct Transaction {
    /// What it was opened with.
    pub terms: Terms,
    /// The transactions that were opened before and unfinished then.
    pub unfinished_at_opening: Vec<usize>,
    /// Messages added.
    pub added: u32,
    /// Messages in accepted frames.
    pub accepted: u32,
    /// Messages in released frames.
    pub released: u32,
}

impl Transaction {
    /// All its messages, and so its data, are in accepted frames (D19).
    pub fn is_complete(&self) -> bool {
        self.accepted == self.terms.messages().into()
    }

    /// All its messages were added and lie in released frames (C18).
    pub fn is_finished(&self) -> bool {
        self.released == self.terms.messages().into()
    }
}

/// What a showing or choice handed out.
#[derive(Clone, Copy, Debug, PartialEq, Eq)]
pub enum HandOut {
    /// It was refused: an empty part.
    Nothing,
    /// The lent acknowledgement.
    Lent,
    /// The sealed frame of this count.
    Frame(usize),
}

/// An acknowledgement that an answer called for: a run of accepted frames.
#[derive(Clone, Copy, Debug, PartialEq, Eq)]
pub struct Acknowledgement {
    /// The count of the frame that was answered.
    pub first: usize,
    /// How many frames it acknowledges from that one on.
    pub run: u8,
}

/// What the host owes to an arrival (D17).
#[derive(Clone, Debug, PartialEq, Eq)]
pub enum Expected {
    /// The first copy of a frame: accepted, with what the frame holds.
    Accepted {
        /// The frame's count.
        frame: usize,
        /// Its messages.
        messages: u64,
        /// Their data bytes.
        bytes: u64,
        /// The transactions that it makes complete.
        completed: Vec<usize>,
        /// How many frames from this one on are then accepted (H23).
        run: u8,
    },
    /// A later copy: again.
    Again {
        /// The frame's count.
        frame: usize,
        /// As above.
        run: u8,
    },
    /// Neither of the two, and nothing happens (D13).
    NoEffect,
}
