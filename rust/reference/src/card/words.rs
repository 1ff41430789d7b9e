//! A card's state as the 85 words that callers of the library keep: any words are a state,
//! and bits without a meaning are not looked at.

use super::{Building, Card, SLOTS, Transaction, slot_of};
use crate::host::Terms;

/// Words of a card.
pub const CARD_WORDS: usize = 85;

/// A number that far from a bit on.
fn field(word: u64, from: u32, bits: u32) -> u64 {
    word >> from & ((1 << bits) - 1)
}

impl Card {
    /// The state that these words are.
    pub fn from_words(words: &[u64; CARD_WORDS]) -> Card {
        let [own, peer, limit, used] = [0, 16, 32, 48].map(|from| field(words[0], from, 16) as u16);
        let [last, next, base] = [0, 16, 32].map(|from| field(words[1], from, 16) as u16);
        let (next_transaction, lowest) = (words[3] as u32, (words[3] >> 32) as u32);
        let mut card = Card::starting_at(own, peer, limit.into(), base, lowest);
        // Counts start one round on, so that there are frames before the lowest one.
        card.released += 1 << 16;
        card.sealed = next.wrapping_sub(base).into();
        let marked = (0..64).filter(|bit| words[2] >> bit & 1 == 1);
        card.acknowledged = marked.map(|bit| card.released + bit).collect();
        let sizes = (0..SLOTS).map(|slot| {
            (
                slot,
                field(words[5 + slot / 4], 16 * (slot as u32 % 4), 16) as usize,
            )
        });
        card.lengths = sizes.collect();
        card.building = (used > 0).then_some(Building {
            length: used.into(),
            last_header: last.into(),
        });
        card.opened = next_transaction.wrapping_sub(lowest).into();
        let marked = (0..32).filter(|bit| words[4] >> bit & 1 == 1);
        card.finished = marked.map(|bit| card.lowest + bit).collect();
        card.transactions = (0..32)
            .map(|place| {
                (
                    place,
                    card.transaction_in(&words[21 + 2 * place as usize..]),
                )
            })
            .collect();
        card
    }

    /// The transaction in two words. Of its frames they keep the number of the last.
    ///
    /// With all messages added that is the lowest frame with this number that is not
    /// released: were it released, the transaction would be finished (C18), and only its
    /// mark would count. Words that no run reaches may have a number there that no
    /// unreleased frame has, and no mark; the number is then that of a frame to come. With
    /// messages missing the last frame may be released: it is the one with this number
    /// among those that are not released or are being built, otherwise one before them.
    fn transaction_in(&self, words: &[u64]) -> Transaction {
        let terms = Terms {
            count: words[1] as u16,
            completion_address: words[0] as u32,
            completion_value: (words[0] >> 32) as u32,
        };
        let added = field(words[1], 16, 16) as u16;
        let latest = field(words[1], 32, 16);
        let ahead = (latest as i64 - self.released as i64).rem_euclid(1 << 16) as u64;
        let not_released = self.released + ahead;
        let last_frame = if ahead <= self.sealed || added == terms.messages() {
            not_released
        } else {
            not_released - (1 << 16)
        };
        Transaction {
            terms,
            added,
            frames: (added > 0).then_some(last_frame).into_iter().collect(),
        }
    }

    /// Words that are this state, with 0 in all that has no meaning: sizes of slots that
    /// hold no sealed frame, transactions that are not opened, and the last frame of one
    /// that has no message.
    pub fn to_words(&self) -> [u64; CARD_WORDS] {
        let mut words = [0; CARD_WORDS];
        let (used, last) = self
            .building
            .map_or((0, 0), |frame| (frame.length, frame.last_header));
        words[0] = u64::from(self.own)
            | u64::from(self.peer) << 16
            | (self.limit as u64) << 32
            | (used as u64) << 48;
        words[1] =
            last as u64 | field(self.next_frame(), 0, 16) << 16 | field(self.released, 0, 16) << 32;
        for frame in &self.acknowledged {
            words[2] |= 1 << (frame - self.released);
        }
        let next = self.lowest + self.opened;
        words[3] = field(next, 0, 32) | field(self.lowest, 0, 32) << 32;
        for transaction in &self.finished {
            words[4] |= 1 << (transaction - self.lowest);
        }
        // A number of frames above the slots is none that a run reaches; each slot counts.
        for slot in (self.released..self.next_frame()).take(SLOTS).map(slot_of) {
            let length = self.lengths.get(&slot).copied().unwrap_or(0) as u64;
            words[5 + slot / 4] |= length << (16 * (slot % 4));
        }
        for place in (self.lowest..next)
            .take(32)
            .map(|transaction| self.place(transaction))
        {
            let Transaction {
                terms,
                added,
                frames,
            } = &self.transactions[&place];
            let at = 21 + 2 * place as usize;
            words[at] =
                u64::from(terms.completion_address) | u64::from(terms.completion_value) << 32;
            let latest = frames.last().map_or(0, |frame| field(*frame, 0, 16));
            words[at + 1] = u64::from(terms.count) | u64::from(*added) << 16 | latest << 32;
        }
        words
    }
}
