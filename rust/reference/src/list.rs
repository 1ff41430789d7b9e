//! The calls that a list of demand 3 is made of (D1), and what a call is answered.
//! An arrival names which earlier thing it is a copy of, so that a list has no way to
//! alter or invent anything (D3, D4).

use crate::host::Answer;
use std::rc::Rc;

/// One call of a list: one of the card's six steps, or the host's receiving.
#[derive(Clone, Debug, PartialEq, Eq)]
pub enum Call {
    /// The card opens a transaction.
    Open {
        /// Count of data messages.
        count: u16,
        /// Where the completion is written.
        address: u32,
        /// What it writes.
        value: u32,
    },
    /// The card adds a message.
    Add {
        /// Its transaction's number.
        transaction: u32,
        /// Where its data is written.
        address: u32,
        /// Its data.
        data: Vec<u8>,
    },
    /// The card seals the frame being built.
    Seal,
    /// The card reads a copy of this acknowledgement, counted from 0 over all that the
    /// host's answers called for. One that is not there brings no bytes.
    Read(usize),
    /// The card shows the held frame of this number.
    Show(u16),
    /// The card chooses what goes out next; these bytes are its acknowledgement buffer.
    Choose(Vec<u8>),
    /// The host receives a copy of this hand-out, counted from 0 over all showings and
    /// choices, refused ones included. One that is not there brings no bytes.
    Receive(usize),
}

/// What a call is answered.
#[derive(Clone, Debug, PartialEq, Eq)]
pub enum Outcome {
    /// A transaction was opened under this number.
    Opened(u32),
    /// A message was added.
    Added,
    /// A frame was sealed under this number.
    Sealed(u16),
    /// Acknowledgements were read.
    Read,
    /// These bytes were shown or chosen.
    HandedOut(Rc<[u8]>),
    /// The card's call was refused; a showing or choice then handed out no bytes.
    Refused(u8),
    /// The host's answer.
    Answered(Answer),
}

impl Outcome {
    /// The refusal of a card's call.
    pub fn card_refusal(&self) -> Option<u8> {
        match self {
            Outcome::Refused(number) => Some(*number),
            _ => None,
        }
    }

    /// What a showing or choice handed out: no bytes if it was refused.
    pub fn handed_out(&self) -> &[u8] {
        match self {
            Outcome::HandedOut(bytes) => bytes,
            _ => &[],
        }
    }
}
