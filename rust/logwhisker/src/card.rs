//! The card's end of a connection: it owns its state, builds frames inside the lent slots, and
//! hands them out until they are acknowledged.

use crate::raw::{self, CARD_WORDS};
use crate::refusal::Refusal;

/// What goes out next, as a part of its own buffer.
#[derive(Clone, Copy, Debug, PartialEq, Eq)]
pub enum Chosen<'a> {
    /// The lent acknowledgement.
    Acknowledgement(&'a [u8]),
    /// The oldest held frame.
    Frame(&'a [u8]),
}

impl<'a> Chosen<'a> {
    /// The bytes to be sent.
    pub fn bytes(self) -> &'a [u8] {
        match self {
            Chosen::Acknowledgement(bytes) | Chosen::Frame(bytes) => bytes,
        }
    }
}

/// The card's end of a connection. The slots are a buffer of 64 times the frame limit, and the same
/// ones are to be lent each time, unchanged in between. A refused step leaves card and slots as
/// they were; only adding writes to the slots.
#[derive(Clone, Debug, PartialEq, Eq)]
pub struct Card {
    words: [u64; CARD_WORDS],
}

impl Card {
    /// An end that is not open: fresh, with IDs and frame limit 0, as a refused opening
    /// leaves it.
    pub fn new() -> Card {
        let mut card = Card {
            words: [0; CARD_WORDS],
        };
        // Refused, and that is what is wanted.
        let _ = card.reopen(0, 0, 0, &[]);
        card
    }

    /// A fresh end of this own ID for this peer, whose frames have up to `limit` bytes.
    pub fn open(own: u16, peer: u16, limit: usize, slots: &[u8]) -> Result<Card, Refusal> {
        let mut card = Card {
            words: [0; CARD_WORDS],
        };
        card.reopen(own, peer, limit, slots)?;
        Ok(card)
    }

    /// Starts anew; where that is refused, the end is as [`Card::new`] makes it.
    pub fn reopen(
        &mut self,
        own: u16,
        peer: u16,
        limit: usize,
        slots: &[u8],
    ) -> Result<(), Refusal> {
        Refusal::check(raw::card_open(&mut self.words, own, peer, limit, slots))
    }

    /// Opens a transaction of `count` data messages, or of one bare message for 0, whose
    /// completion writes `value` at `address`, and gives its number.
    pub fn open_transaction(
        &mut self,
        count: u16,
        address: u32,
        value: u32,
    ) -> Result<u32, Refusal> {
        let mut transaction = 0;
        let refusal =
            raw::card_open_transaction(&mut self.words, count, address, value, &mut transaction);
        Refusal::check(refusal).map(|()| transaction)
    }

    /// Adds one message of a transaction, with data for an address, to the frame being built.
    pub fn add(
        &mut self,
        slots: &mut [u8],
        transaction: u32,
        address: u32,
        data: &[u8],
    ) -> Result<(), Refusal> {
        Refusal::check(raw::card_add(
            &mut self.words,
            slots,
            transaction,
            address,
            data,
        ))
    }

    /// Seals the frame being built and gives its number.
    pub fn seal(&mut self, slots: &[u8]) -> Result<u16, Refusal> {
        let mut number = 0;
        let refusal = raw::card_seal(&mut self.words, slots, &mut number);
        Refusal::check(refusal).map(|()| number)
    }

    /// Takes in the acknowledgements of an arriving frame, whose messages are not looked at
    /// further than that they fit. Refused with 1 to 5.
    pub fn read(&mut self, frame: &[u8]) -> Result<(), Refusal> {
        Refusal::check(raw::card_read(&mut self.words, frame))
    }

    /// A held frame, as a part of the slots.
    pub fn show<'a>(&self, slots: &'a [u8], number: u16) -> Result<&'a [u8], Refusal> {
        let mut part = [0; 2];
        Refusal::check(raw::card_show(&self.words, slots, number, &mut part))?;
        let [offset, length] = part;
        Ok(part_of(slots, offset, length))
    }

    /// What goes out next: the lent acknowledgement if it has the length of one, otherwise
    /// the oldest held frame.
    pub fn choose<'a>(
        &self,
        slots: &'a [u8],
        acknowledgement: &'a [u8],
    ) -> Result<Chosen<'a>, Refusal> {
        let mut part = [0; 3];
        Refusal::check(raw::card_choose(
            &self.words,
            slots,
            acknowledgement,
            &mut part,
        ))?;
        let [lent, offset, length] = part;
        Ok(match lent {
            0 => Chosen::Frame(part_of(slots, offset, length)),
            1 => Chosen::Acknowledgement(part_of(acknowledgement, offset, length)),
            _ => unreachable!("the library has no buffer {lent}"),
        })
    }

    /// The state that these words are; any words are one.
    pub fn from_words(words: [u64; CARD_WORDS]) -> Card {
        Card { words }
    }

    /// The words of the state, to be kept and not to be looked into.
    pub fn words(&self) -> &[u64; CARD_WORDS] {
        &self.words
    }
}

impl Default for Card {
    fn default() -> Card {
        Card::new()
    }
}

/// What the library hands out lies in the buffer, whatever the state.
fn part_of(buffer: &[u8], offset: u64, length: u64) -> &[u8] {
    &buffer[offset as usize..][..length as usize]
}
