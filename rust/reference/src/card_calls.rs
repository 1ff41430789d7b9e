//! Calls on a card for comparing another one with it: what a call is and gives, what the
//! reference gives for it, and calls that are aimed at a state.

use crate::card::{CARD_WORDS, Card};
use crate::rng::Rng;
use crate::wire::{self, Message};

/// A call on a card that is open. Those that lend the slots may lend them a byte short.
#[derive(Clone, Debug)]
pub enum Call {
    /// See [`Card::open_transaction`].
    Open {
        /// Its data messages.
        count: u16,
        /// Where its completion is written.
        address: u32,
        /// What its completion writes.
        value: u32,
    },
    /// See [`Card::add`].
    Add {
        /// Transaction number.
        transaction: u32,
        /// Where the data is written.
        address: u32,
        /// The data.
        data: Vec<u8>,
        /// The slots are a byte short.
        short: bool,
    },
    /// See [`Card::seal`].
    Seal {
        /// The slots are a byte short.
        short: bool,
    },
    /// See [`Card::read`].
    Read(Vec<u8>),
    /// See [`Card::show`].
    Show {
        /// Frame number.
        number: u16,
        /// The slots are a byte short.
        short: bool,
    },
    /// See [`Card::choose`].
    Choose {
        /// The lent acknowledgement.
        lent: Vec<u8>,
        /// The slots are a byte short.
        short: bool,
    },
}

impl Call {
    /// How many bytes of the slots are lent.
    pub fn lent(&self, slots: usize) -> usize {
        let short = match self {
            Call::Add { short, .. }
            | Call::Seal { short }
            | Call::Show { short, .. }
            | Call::Choose { short, .. } => *short,
            Call::Open { .. } | Call::Read(_) => false,
        };
        slots.saturating_sub(short.into())
    }

    /// Its index among the kinds, for counting them.
    pub fn kind(&self) -> usize {
        match self {
            Call::Open { .. } => 0,
            Call::Add { .. } => 1,
            Call::Seal { .. } => 2,
            Call::Read(_) => 3,
            Call::Show { .. } => 4,
            Call::Choose { .. } => 5,
        }
    }
}

/// What a call gives.
#[derive(Clone, Debug, PartialEq, Eq)]
pub enum Outcome {
    /// It was done.
    Done,
    /// Of a transaction or a frame.
    Number(u32),
    /// A part of the slots: where it starts, and its bytes.
    Frame(usize, Vec<u8>),
    /// A part of the lent acknowledgement.
    Lent(Vec<u8>),
    /// The refusal's number.
    Refused(u8),
}

fn done(result: Result<(), u8>) -> Outcome {
    result.map_or_else(Outcome::Refused, |()| Outcome::Done)
}

fn number(result: Result<u32, u8>) -> Outcome {
    result.map_or_else(Outcome::Refused, Outcome::Number)
}

/// A part of the slots; an empty one starts nowhere in particular.
pub fn frame(offset: usize, bytes: &[u8]) -> Outcome {
    Outcome::Frame(if bytes.is_empty() { 0 } else { offset }, bytes.to_vec())
}

/// What the independent card gives.
pub fn expected(card: &mut Card, slots: &mut [u8], call: &Call) -> Outcome {
    let lent = call.lent(slots.len());
    let slots = &mut slots[..lent];
    match call {
        Call::Open {
            count,
            address,
            value,
        } => number(card.open_transaction(*count, *address, *value)),
        Call::Add {
            transaction,
            address,
            data,
            ..
        } => done(card.add(*transaction, *address, data, slots)),
        Call::Seal { .. } => number(card.seal(slots).map(u32::from)),
        Call::Read(frame) => done(card.read(frame)),
        Call::Show { number, .. } => match card.show_refusal(*number, slots) {
            Some(refusal) => Outcome::Refused(refusal),
            None => in_slots(slots, card.show(*number, slots)),
        },
        Call::Choose { lent, .. } => match card.choose_refusal(lent, slots) {
            Some(refusal) => Outcome::Refused(refusal),
            None => {
                let part = card.choose(lent, slots);
                if part.as_ptr() == lent.as_ptr() && !lent.is_empty() {
                    Outcome::Lent(part.to_vec())
                } else {
                    in_slots(slots, part)
                }
            }
        },
    }
}

fn in_slots(slots: &[u8], part: &[u8]) -> Outcome {
    frame(part.as_ptr().addr() - slots.as_ptr().addr(), part)
}

/// Makes calls that are aimed at a state.
#[derive(Clone, Debug)]
pub struct Aim {
    /// What is left to chance.
    pub rng: Rng,
    /// No acknowledgement is read, so that the slots fill.
    pub deaf: bool,
}

impl Aim {
    /// A call on the card of these words.
    pub fn call(&mut self, words: &[u64; CARD_WORDS]) -> Call {
        let kinds = if self.deaf { 24 } else { 32 };
        let short = self.rng.chance(1, 60);
        match self.rng.below(kinds) {
            0..5 => Call::Open {
                count: self.count(),
                address: self.rng.next_u32(),
                value: self.rng.next_u32(),
            },
            5..13 => self.add(words, short),
            13..18 => Call::Seal { short },
            18..21 => self.show(words, short),
            21..24 => {
                let length = self.rng.pick(&[0, 0, 0, 0, 0, 9, 10, 11, 34]);
                let lent = self.rng.bytes(length);
                Call::Choose { lent, short }
            }
            _ => Call::Read(self.acknowledgement(words)),
        }
    }

    /// One that takes many messages blocks the window where acknowledgements are read, and
    /// keeps frames coming where none is.
    fn count(&mut self) -> u16 {
        match self.rng.below(200) {
            0 => 65_535,
            _ if self.deaf => self.rng.pick(&[0, 1, 2, 5, 65_535]),
            _ => self.rng.pick(&[0, 1, 1, 1, 2, 3]),
        }
    }

    fn add(&mut self, words: &[u64; CARD_WORDS], short: bool) -> Call {
        let (next, lowest) = (words[3] as u32, (words[3] >> 32) as u32);
        let opened = next.wrapping_sub(lowest).clamp(1, 40);
        let transaction = match self.rng.below(16) {
            0 => self.rng.next_u32(),
            1 => next,
            2 => lowest.wrapping_sub(1),
            3..6 => lowest,
            _ => lowest.wrapping_add(self.rng.below(opened as usize) as u32),
        };
        let (limit, used) = ((words[0] >> 32) as u16 as usize, (words[0] >> 48) as usize);
        let room = limit.saturating_sub(wire::next_header(used) + 24);
        let length = match self.rng.below(80) {
            0..8 => room,
            8..16 => room + 1,
            16..24 => room.saturating_sub(32),
            24..44 => 0,
            44 => self.rng.pick(&[9_000, 65_535, 65_536]),
            _ => self.rng.below(room.min(20) + 1),
        };
        Call::Add {
            transaction,
            address: self.rng.next_u32(),
            data: self.rng.bytes(length),
            short,
        }
    }

    fn show(&mut self, words: &[u64; CARD_WORDS], short: bool) -> Call {
        let (next, base) = ((words[1] >> 16) as u16, (words[1] >> 32) as u16);
        let near = self.rng.below(72) as u16;
        let number = match self.rng.below(8) {
            0 => self.rng.next_u16(),
            1 => base,
            2 => next,
            3 => next.wrapping_sub(1),
            _ => base.wrapping_add(near).wrapping_sub(4),
        };
        Call::Show { number, short }
    }

    /// A frame for the card: mostly a range around its window, at times damaged, with
    /// messages, or not for it.
    fn acknowledgement(&mut self, words: &[u64; CARD_WORDS]) -> Vec<u8> {
        let (own, peer) = (words[0] as u16, (words[0] >> 16) as u16);
        let (next, base) = ((words[1] >> 16) as u16, (words[1] >> 32) as u16);
        let unreleased = next.wrapping_sub(base).clamp(1, 80);
        let start = match self.rng.below(8) {
            0 => next,
            1 => base.wrapping_sub(self.rng.below(5) as u16),
            2..5 => base,
            5 => self.rng.next_u16(),
            _ => base.wrapping_add(self.rng.below(unreleased as usize) as u16),
        };
        let count = self.rng.pick(&[0, 1, 1, 1, 1, 2, 3, 20, 64, 255]);
        let mut frame = wire::ack_frame(own, peer, self.rng.next_u16(), start, count).to_vec();
        match self.rng.below(16) {
            0 => frame.truncate(self.rng.below(11)),
            1 => frame[self.rng.below(4)] ^= 1,
            2 => frame[9] = self.rng.pick(&[1, 2, 128, 255]),
            3 => {
                let length = self.rng.pick(&[1, 24, 8_990, 8_991]);
                frame.extend(self.rng.bytes(length));
            }
            4 => {
                frame = with_messages(&frame);
                let any = self.rng.next_u8();
                frame[33] = self.rng.pick(&[0, 1, 2, 128, 255, any]);
                frame[65] = self.rng.pick(&[0, 0, 0, 1, 2, 128, 255, any]);
                let cut = self.rng.pick(&[0, 0, 1]);
                frame.truncate(frame.len() - cut);
            }
            // With a count of 0 the start means nothing, whatever stands there.
            5 => frame[6..8].copy_from_slice(&start.to_le_bytes()),
            _ => {}
        }
        frame
    }
}

/// A frame that carries two messages beside its acknowledgements, their headers at 10
/// and 42.
fn with_messages(head: &[u8]) -> Vec<u8> {
    let message = Message {
        transaction: 0,
        completion_address: 0,
        completion_value: 0,
        count: 1,
        data_address: 0,
        data: &[1, 2, 3],
    };
    let mut frame = wire::write_frame(0, 0, 0, &[message, message]);
    frame[..9].copy_from_slice(&head[..9]);
    frame
}
