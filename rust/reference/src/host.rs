//! The charging host's end of a pair: what it keeps, how it answers an arriving
//! frame and which acknowledgement an answer calls for. A frame is judged on a copy
//! of state and memory, which takes their place only if no message is refused. Any state
//! gets an answer, also one that no run reaches and that a test puts together.

use crate::refusal;
use crate::windows::Windows;
use crate::wire::{self, FRAME_HEADER, Message};
use std::collections::{BTreeMap, BTreeSet};
use std::fmt;

mod stored;
mod words;

pub use words::HOST_WORDS;

/// What all messages of a transaction have to say alike (N9).
#[derive(Clone, Copy, Debug, PartialEq, Eq)]
pub struct Terms {
    /// How many data messages there are; 0 for a bare completion.
    pub count: u16,
    /// Where the completion is written.
    pub completion_address: u32,
    /// What the completion writes.
    pub completion_value: u32,
}

impl Terms {
    /// How many messages the transaction takes; the bare one is a message too (W16).
    pub fn messages(&self) -> u16 {
        self.count.max(1)
    }

    fn of(message: &Message) -> Terms {
        Terms {
            count: message.count,
            completion_address: message.completion_address,
            completion_value: message.completion_value,
        }
    }
}

/// A transaction of which messages came and others are to come.
#[derive(Clone, Copy, Debug, PartialEq, Eq)]
pub struct Open {
    /// As its first message gave them.
    pub terms: Terms,
    /// Messages so far.
    pub received: u16,
}

/// What a frame is answered (H13).
#[derive(Clone, Copy, Debug, PartialEq, Eq, Hash)]
pub enum Answer {
    /// All its messages took effect; the numbers are those of this frame only.
    Accepted {
        /// Frame number.
        number: u16,
        /// Messages.
        messages: u64,
        /// Data bytes; a completion's four bytes are none (H14).
        bytes: u64,
        /// Transactions that became complete.
        completed: u64,
        /// How many numbers from this one on are acknowledged (H23).
        run: u8,
    },
    /// The number is behind or was accepted before.
    Again {
        /// Frame number.
        number: u16,
        /// As above.
        run: u8,
    },
    /// The flag is clear.
    NoMessages,
    /// Nothing changed.
    Refused {
        /// The refusal's number.
        number: u8,
        /// The message's index for 7 to 12, otherwise 0 (H18).
        place: usize,
    },
}

impl fmt::Display for Answer {
    /// The replay's line (P4), which tells neither place nor run.
    fn fmt(&self, f: &mut fmt::Formatter) -> fmt::Result {
        match self {
            Answer::Accepted {
                number,
                messages,
                bytes,
                completed,
                ..
            } => write!(f, "A {number} {messages} {bytes} {completed}"),
            Answer::Again { number, .. } => write!(f, "G {number}"),
            Answer::NoMessages => write!(f, "N"),
            Answer::Refused { number, .. } => write!(f, "R {number}"),
        }
    }
}

/// How many numbers one acknowledgement covers at most (H25).
pub const LONGEST_RUN: usize = 255;

/// Where a frame number lies, seen from the next one (H4).
#[derive(Clone, Copy, Debug, PartialEq, Eq)]
pub enum Position {
    /// It may be accepted, if it was not already.
    InWindow,
    /// Too far on to be accepted yet.
    Ahead,
    /// Its time is over.
    Behind,
}

/// The host's end of a pair.
#[derive(Clone, Debug, PartialEq, Eq)]
pub struct Host {
    own: u16,
    peer: u16,
    windows: Windows,
    /// The lowest frame number not accepted.
    next: u16,
    /// Accepted frame numbers past `next`.
    accepted: BTreeSet<u16>,
    /// The lowest transaction that is not complete.
    lowest: u32,
    /// Complete transactions past `lowest`.
    closed: BTreeSet<u32>,
    open: BTreeMap<u32, Open>,
}

impl Host {
    /// A fresh end (H1), and refusal 13 (at place 0) if an ID is 0. It then has both
    /// IDs 0 and answers like any other (B11).
    pub fn open(own: u16, peer: u16) -> (Host, Option<u8>) {
        if own == 0 || peer == 0 {
            (Host::starting_at(0, 0, 0, 0), Some(refusal::ID_ZERO))
        } else {
            (Host::starting_at(own, peer, 0, 0), None)
        }
    }

    /// An end that has nothing received ahead and none open, as a fresh one would be
    /// after long use. For tests of numbers that take too long to get to.
    pub fn starting_at(own: u16, peer: u16, next: u16, lowest: u32) -> Host {
        Host {
            own,
            peer,
            windows: Windows::RULES,
            next,
            accepted: BTreeSet::new(),
            lowest,
            closed: BTreeSet::new(),
            open: BTreeMap::new(),
        }
    }

    /// The same end with windows of other sizes. For tests of what those break.
    pub fn with_windows(self, windows: Windows) -> Host {
        Host { windows, ..self }
    }

    /// The sizes that it goes by.
    pub fn windows(&self) -> Windows {
        self.windows
    }

    /// Answers any bytes at all.
    pub fn receive(&mut self, frame: &[u8], memory: &mut [u8]) -> Answer {
        let frame = match wire::read(frame, Some((self.own, self.peer))) {
            Ok(frame) => frame,
            Err(number) => return Answer::Refused { number, place: 0 },
        };
        // A set flag always has a message: else it is refused above.
        if frame.messages.is_empty() {
            return Answer::NoMessages;
        }
        let number = frame.header.number;
        if self.is_behind_or_accepted(number) {
            let run = self.run(number);
            return Answer::Again { number, run };
        }
        if self.position(number) == Position::Ahead {
            return Answer::Refused {
                number: refusal::FRAME_AHEAD,
                place: 0,
            };
        }

        let mut trial = self.clone();
        let mut written = memory.to_vec();
        let mut bytes = 0;
        let mut completed = 0;
        for (place, message) in frame.messages.iter().enumerate() {
            match trial.take(message, &mut written) {
                Ok(complete) => {
                    bytes += message.data.len() as u64;
                    completed += u64::from(complete);
                }
                Err(number) => return Answer::Refused { number, place },
            }
        }
        trial.mark(number);
        *self = trial;
        memory.copy_from_slice(&written);
        Answer::Accepted {
            number,
            messages: frame.messages.len() as u64,
            bytes,
            completed,
            run: self.run(number),
        }
    }

    /// The acknowledgement that an answer calls for (H19). `next_number` is that of
    /// the sender's next message frame and is not used up (H21). A run of 0, which no
    /// frame is answered with, calls for none.
    pub fn acknowledgement(&self, answer: Answer, next_number: u16) -> Option<[u8; FRAME_HEADER]> {
        match answer {
            Answer::Accepted { number, run, .. } | Answer::Again { number, run } if run > 0 => {
                let (to, from) = (self.peer, self.own);
                Some(wire::ack_frame(to, from, next_number, number, run))
            }
            _ => None,
        }
    }

    /// The longest run of numbers from this one on in which each is behind or accepted,
    /// as the state is now (H23).
    pub fn run(&self, first: u16) -> u8 {
        let mut numbers = (0..LONGEST_RUN as u16).map(|step| first.wrapping_add(step));
        let run = numbers.position(|number| !self.is_behind_or_accepted(number));
        run.unwrap_or(LONGEST_RUN) as u8
    }

    /// Whether a frame with this number is answered again (H5).
    pub fn is_behind_or_accepted(&self, number: u16) -> bool {
        match self.position(number) {
            Position::Behind => true,
            Position::InWindow => self.is_accepted(number),
            Position::Ahead => false,
        }
    }

    /// Judges one message and lets it take effect. Answers whether that made its
    /// transaction complete, or the first refusal met, having changed nothing.
    pub fn take(&mut self, message: &Message, memory: &mut [u8]) -> Result<bool, u8> {
        let transaction = message.transaction;
        let terms = Terms::of(message);
        let data = span(message.data_address, message.data.len(), memory.len());
        let completion = span(message.completion_address, 4, memory.len());
        let open = self.open.get(&transaction);

        if !self.in_window(transaction) {
            return Err(refusal::TRANSACTION_OUTSIDE);
        }
        if self.is_closed(transaction) {
            return Err(refusal::TRANSACTION_CLOSED);
        }
        if open.is_some_and(|open| open.terms != terms) {
            return Err(refusal::TRANSACTION_DIFFERS);
        }
        if terms.count == 0 && !message.data.is_empty() {
            return Err(refusal::BARE_WITH_DATA);
        }
        let data = data.ok_or(refusal::DATA_OUTSIDE)?;
        let completion = completion.ok_or(refusal::COMPLETION_OUTSIDE)?;

        memory[data].copy_from_slice(message.data);
        // The count has 16 bits, and one of 0 is no transaction's: no run gets past its end.
        let received = open.map_or(0, |open| open.received).wrapping_add(1);
        let complete = received == terms.messages();
        self.open.remove(&transaction);
        if complete {
            memory[completion].copy_from_slice(&terms.completion_value.to_le_bytes());
            self.close(transaction);
        } else if received > 0 {
            self.open.insert(transaction, Open { terms, received });
        }
        Ok(complete)
    }

    fn close(&mut self, transaction: u32) {
        self.closed.insert(transaction);
        while self.closed.remove(&self.lowest) {
            // What a transaction leaves, which no run's does, is where the one a window
            // further on is kept.
            if let Some(left) = self.open.remove(&self.lowest) {
                let next = self.lowest.wrapping_add(self.windows.transactions as u32);
                self.open.insert(next, left);
            }
            self.lowest = self.lowest.wrapping_add(1);
        }
    }

    fn mark(&mut self, number: u16) {
        self.accepted.insert(number);
        while self.accepted.remove(&self.next) {
            self.next = self.next.wrapping_add(1);
        }
    }

    /// Where a frame number lies.
    pub fn position(&self, number: u16) -> Position {
        let distance = (i64::from(number) - i64::from(self.next)).rem_euclid(1 << 16);
        if distance < self.windows.frames {
            Position::InWindow
        } else if distance < self.windows.behind {
            Position::Ahead
        } else {
            Position::Behind
        }
    }

    /// Whether a number in the window was accepted.
    pub fn is_accepted(&self, number: u16) -> bool {
        self.accepted.contains(&number)
    }

    /// Whether a transaction may have messages, as far as its number goes.
    pub fn in_window(&self, transaction: u32) -> bool {
        let distance = (i64::from(transaction) - i64::from(self.lowest)).rem_euclid(1 << 32);
        distance < self.windows.transactions
    }

    /// Whether a transaction in the window is complete.
    pub fn is_closed(&self, transaction: u32) -> bool {
        self.closed.contains(&transaction)
    }

    /// The own ID and then the peer's.
    pub fn ids(&self) -> (u16, u16) {
        (self.own, self.peer)
    }

    /// The lowest frame number not accepted.
    pub fn next(&self) -> u16 {
        self.next
    }

    /// The lowest transaction that is not complete.
    pub fn lowest(&self) -> u32 {
        self.lowest
    }

    /// The open transactions by number.
    pub fn open_transactions(&self) -> &BTreeMap<u32, Open> {
        &self.open
    }

    /// The complete transactions past the lowest one that is not.
    pub fn closed_transactions(&self) -> &BTreeSet<u32> {
        &self.closed
    }

    /// The accepted frames as marks: bit i is for the number i past the next one.
    pub fn marks(&self) -> u64 {
        let accepted = (0..64u16).filter(|i| self.is_accepted(self.next.wrapping_add(*i)));
        accepted.map(|i| 1 << i).sum()
    }

    /// The complete transactions as marks: bit i is for the number i past the lowest one.
    pub fn closed_marks(&self) -> u32 {
        let closed = (0..32u32).filter(|i| self.is_closed(self.lowest.wrapping_add(*i)));
        closed.map(|i| 1 << i).sum()
    }

    /// The open transactions with their numbers, the one nearest the lowest first.
    pub fn open_in_order(&self) -> Vec<(u32, Open)> {
        let open = self.open.iter().map(|(number, open)| (*number, *open));
        let mut open: Vec<_> = open.collect();
        open.sort_by_key(|(number, _)| number.wrapping_sub(self.lowest));
        open
    }
}

/// The bytes from `address` on, if memory has them all. The sum takes more than
/// 32 bits (X5).
fn span(address: u32, length: usize, memory: usize) -> Option<std::ops::Range<usize>> {
    let start = u64::from(address);
    let end = start + length as u64;
    (end <= memory as u64).then_some(start as usize..end as usize)
}

#[cfg(test)]
mod tests;
