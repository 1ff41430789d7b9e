//! The card's end of a pair: its opening, the six steps and the two calls that tell
//! why nothing was shown or chosen. Frames and transactions are counted without
//! wrapping; a number on the wire is a count's low 16 or 32 bits. Any state gets an answer,
//! also one that no run reaches and that a test puts together.

use crate::host::Terms;
use crate::refusal;
use crate::windows::Windows;
use crate::wire::{
    self, FRAME_HEADER, FrameHeader, HAS_MESSAGES, LONGEST_FRAME, MESSAGE_HEADER, Message, TRAILING,
};
use std::collections::{BTreeMap, BTreeSet};
use std::ops::Range;

mod words;

pub use words::CARD_WORDS;

/// Slots of the lent buffer (C2).
pub const SLOTS: usize = 64;
/// The smallest frame limit: room for one message without data (N26).
pub const LEAST_LIMIT: usize = FRAME_HEADER + MESSAGE_HEADER;

/// The frame being built, once it has a message.
#[derive(Clone, Copy, Debug, PartialEq, Eq)]
struct Building {
    length: usize,
    /// Where the latest message's header stands.
    last_header: usize,
}

/// An opened transaction.
#[derive(Clone, Debug, PartialEq, Eq)]
struct Transaction {
    terms: Terms,
    /// Messages added.
    added: u16,
    /// The frames that hold them.
    frames: BTreeSet<u64>,
}

impl Transaction {
    fn wants_messages(&self) -> bool {
        self.added < self.terms.messages()
    }

    /// All its messages are added and lie in released frames, which are those below this
    /// one (C18).
    fn is_finished(&self, released: u64) -> bool {
        let mut latest_first = self.frames.iter().rev();
        self.added == self.terms.messages() && latest_first.all(|frame| *frame < released)
    }
}

/// The card's end of a pair.
#[derive(Clone, Debug, PartialEq, Eq)]
pub struct Card {
    own: u16,
    peer: u16,
    limit: usize,
    windows: Windows,
    /// The lowest frame not released.
    released: u64,
    /// How many are sealed from there on.
    sealed: u64,
    /// Acknowledged frames that wait for a lower one to be released.
    acknowledged: BTreeSet<u64>,
    /// The length of the frame that was last sealed in a slot.
    lengths: BTreeMap<usize, usize>,
    building: Option<Building>,
    /// The lowest transaction not finished.
    lowest: u64,
    /// How many are opened from there on; finished ones may be among them.
    opened: u64,
    /// Finished transactions that wait for a lower one.
    finished: BTreeSet<u64>,
    /// By their number modulo the window's size.
    transactions: BTreeMap<u64, Transaction>,
}

impl Card {
    /// A fresh end (C7), and the refusal if there is one: 13, then 26 (O5). It then has
    /// both IDs and L at 0 (B11).
    pub fn open(own: u16, peer: u16, limit: usize, slots: &[u8]) -> (Card, Option<u8>) {
        let refused = |number| (Card::starting_at(0, 0, 0, 0, 0), Some(number));
        if own == 0 || peer == 0 {
            return refused(refusal::ID_ZERO);
        }
        let card = Card::starting_at(own, peer, limit, 0, 0);
        match card.check(slots) {
            Ok(()) => (card, None),
            Err(number) => refused(number),
        }
    }

    /// An end that holds nothing and has nothing open, as a fresh one would be after
    /// long use. For tests of numbers that take too long to get to.
    pub fn starting_at(own: u16, peer: u16, limit: usize, frame: u16, transaction: u32) -> Card {
        Card {
            own,
            peer,
            limit,
            windows: Windows::RULES,
            released: frame.into(),
            sealed: 0,
            acknowledged: BTreeSet::new(),
            lengths: BTreeMap::new(),
            building: None,
            lowest: transaction.into(),
            opened: 0,
            finished: BTreeSet::new(),
            transactions: BTreeMap::new(),
        }
    }

    /// The same end with windows of other sizes. For tests of what those break.
    pub fn with_windows(self, windows: Windows) -> Card {
        Card { windows, ..self }
    }

    /// Opens a transaction and gives its number, or refusal 20 and no other (O9).
    pub fn open_transaction(
        &mut self,
        count: u16,
        completion_address: u32,
        completion_value: u32,
    ) -> Result<u32, u8> {
        // Finished ones above an unfinished one still take room (N20).
        if self.opened >= self.transaction_window() {
            return Err(refusal::TRANSACTIONS_FULL);
        }
        let transaction = self.lowest + self.opened;
        let entry = Transaction {
            terms: Terms {
                count,
                completion_address,
                completion_value,
            },
            added: 0,
            frames: BTreeSet::new(),
        };
        self.transactions.insert(self.place(transaction), entry);
        self.opened += 1;
        Ok(transaction as u32)
    }

    /// Adds a message to the frame being built, inside its slot. Refusals in order:
    /// 26, 23, 27, 21, 22 (O6).
    pub fn add(
        &mut self,
        transaction: u32,
        data_address: u32,
        data: &[u8],
        slots: &mut [u8],
    ) -> Result<(), u8> {
        self.check(slots)?;
        let place = self.place_of(transaction);
        let place = place.ok_or(refusal::TRANSACTION_DONE)?;
        let terms = self.transactions[&place].terms;
        if !self.transactions[&place].wants_messages() {
            return Err(refusal::TRANSACTION_DONE);
        }
        if terms.count == 0 && !data.is_empty() {
            return Err(refusal::DATA_FOR_BARE);
        }
        if self.sealed >= self.frame_window() {
            return Err(refusal::SLOTS_FULL);
        }
        let start = self
            .building
            .map_or(FRAME_HEADER, |frame| wire::next_header(frame.length));
        let data_start = start + MESSAGE_HEADER;
        let end = data_start + data.len();
        if end > self.limit {
            return Err(refusal::FRAME_FULL);
        }

        let frame = self.next_frame();
        let header = self.frame_header(frame);
        let slot = &mut slots[self.slot(frame)];
        match self.building {
            None => slot[..FRAME_HEADER].copy_from_slice(&header.to_bytes()),
            Some(Building {
                length,
                last_header,
            }) => {
                // A state that no run reaches may have it outside the slot.
                if let Some(trailing) = slot.get_mut(last_header + TRAILING) {
                    *trailing = 1;
                }
                slot[length..start].fill(0);
            }
        }
        let message = Message {
            transaction,
            completion_address: terms.completion_address,
            completion_value: terms.completion_value,
            count: terms.count,
            data_address,
            data,
        };
        slot[start..data_start].copy_from_slice(&wire::message_header(&message, false));
        slot[data_start..end].copy_from_slice(data);

        self.building = Some(Building {
            length: end,
            last_header: start,
        });
        let entry = self.transactions.get_mut(&place).expect("it was found");
        entry.added += 1;
        entry.frames.insert(frame);
        Ok(())
    }

    /// Seals the frame being built and gives its number. Refusals in order: 26, 24 (O7).
    pub fn seal(&mut self, slots: &[u8]) -> Result<u16, u8> {
        self.check(slots)?;
        let Building { length, .. } = self.building.ok_or(refusal::NOTHING_TO_SEAL)?;
        let frame = self.next_frame();
        self.building = None;
        self.lengths.insert(slot_of(frame), length);
        // Frame numbers tell no more apart; a run has 64 at most.
        self.sealed = (self.sealed + 1) % (1 << 16);
        Ok(frame as u16)
    }

    /// Takes in the acknowledgements of an arriving frame, or gives the first refusal
    /// of 1 to 5 (O4). Its messages are measured and otherwise ignored (C11).
    pub fn read(&mut self, frame: &[u8]) -> Result<(), u8> {
        let frame = wire::read(frame, Some((self.own, self.peer)))?;
        // Only what is sealed can be acknowledged, and only as many have a mark for it as
        // the window has frames.
        let end = self.next_frame();
        let marked = self.released + self.frame_window();
        let numbers = wire::acknowledged(&frame.header);
        let covered: Vec<u64> = numbers.filter_map(|n| self.sealed_frame(n)).collect();
        self.acknowledged.extend(covered);
        self.acknowledged.retain(|f| *f < end && *f < marked);
        while self.acknowledged.remove(&self.released) {
            self.released += 1;
            self.sealed -= 1;
        }
        self.finish();
        Ok(())
    }

    /// Finds what else of the opened ones is finished, and passes those that no unfinished
    /// one is below.
    fn finish(&mut self) {
        let end = self.lowest + self.opened;
        let window = self.lowest..end.min(self.lowest + self.transaction_window());
        let finished: Vec<u64> = window
            .filter(|t| !self.finished.contains(t))
            .filter(|t| self.transactions[&self.place(*t)].is_finished(self.released))
            .collect();
        self.finished.extend(finished);
        self.finished.retain(|t| *t < end);
        while self.finished.remove(&self.lowest) {
            self.lowest += 1;
            self.opened -= 1;
        }
    }

    /// A held frame as a part of its slot, or an empty part (C22).
    pub fn show<'a>(&self, number: u16, slots: &'a [u8]) -> &'a [u8] {
        self.to_show(number, slots).map_or(&[], |part| &slots[part])
    }

    /// Why that showing gives nothing: 26, then 25 (O8); none if it gives a frame.
    pub fn show_refusal(&self, number: u16, slots: &[u8]) -> Option<u8> {
        self.to_show(number, slots).err()
    }

    /// What goes out next as a part of its own buffer, or an empty part: the lent
    /// acknowledgement if it has exactly the length of one, otherwise the oldest held
    /// frame (C19, C20).
    pub fn choose<'a>(&self, acknowledgement: &'a [u8], slots: &'a [u8]) -> &'a [u8] {
        match self.to_choose(acknowledgement, slots) {
            Ok(Chosen::Lent) => acknowledgement,
            Ok(Chosen::Slot(part)) => &slots[part],
            Err(_) => &[],
        }
    }

    /// Why that choice gives nothing: 26, then 25 (O8); none if it gives something.
    pub fn choose_refusal(&self, acknowledgement: &[u8], slots: &[u8]) -> Option<u8> {
        self.to_choose(acknowledgement, slots).err()
    }

    /// How many frames are sealed and not released.
    pub fn unreleased(&self) -> usize {
        self.sealed as usize
    }

    /// The number of the lowest frame not released.
    pub fn lowest_unreleased(&self) -> u16 {
        self.released as u16
    }

    /// The number that the frame being built is sealed under.
    pub fn next_number(&self) -> u16 {
        self.next_frame() as u16
    }

    /// The numbers of the transactions that want a message.
    pub fn unfilled(&self) -> impl Iterator<Item = u32> {
        (self.lowest..self.lowest + self.opened)
            .filter(|t| self.transactions[&self.place(*t)].wants_messages())
            .map(|t| t as u32)
    }

    fn to_show(&self, number: u16, slots: &[u8]) -> Result<Range<usize>, u8> {
        self.check(slots)?;
        let frame = self.sealed_frame(number).ok_or(refusal::NOTHING_TO_SHOW)?;
        self.held(frame).ok_or(refusal::NOTHING_TO_SHOW)
    }

    fn to_choose(&self, acknowledgement: &[u8], slots: &[u8]) -> Result<Chosen, u8> {
        self.check(slots)?;
        if acknowledgement.len() == FRAME_HEADER {
            return Ok(Chosen::Lent);
        }
        (self.released..self.next_frame())
            .find_map(|frame| self.held(frame))
            .map(Chosen::Slot)
            .ok_or(refusal::NOTHING_TO_SHOW)
    }

    /// Where the bytes of an unreleased frame stand, if it is held. One that is
    /// acknowledged and waits for another to be released is not (C17). A length that goes
    /// past the buffer's end, which no run gives, is none.
    fn held(&self, frame: u64) -> Option<Range<usize>> {
        let slot = slot_of(frame);
        let length = self.lengths.get(&slot).copied().unwrap_or(0);
        let start = slot * self.limit;
        let end = start + length;
        let part = if end <= SLOTS * self.limit {
            start..end
        } else {
            start..start
        };
        (!self.acknowledged.contains(&frame)).then_some(part)
    }

    /// Refusal 26, for L or for the lent buffer (N26).
    fn check(&self, slots: &[u8]) -> Result<(), u8> {
        let limit_fits = (LEAST_LIMIT..=LONGEST_FRAME).contains(&self.limit);
        if limit_fits && slots.len() == SLOTS * self.limit {
            Ok(())
        } else {
            Err(refusal::BAD_LIMIT)
        }
    }

    fn next_frame(&self) -> u64 {
        self.released + self.sealed
    }

    fn slot(&self, frame: u64) -> Range<usize> {
        let start = slot_of(frame) * self.limit;
        start..start + self.limit
    }

    fn frame_window(&self) -> u64 {
        self.windows.frames as u64
    }

    fn transaction_window(&self) -> u64 {
        self.windows.transactions as u64
    }

    fn frame_header(&self, frame: u64) -> FrameHeader {
        FrameHeader {
            destination: self.peer,
            source: self.own,
            number: frame as u16,
            ack_start: 0,
            ack_count: 0,
            flags: HAS_MESSAGES,
        }
    }

    /// Which of the sealed and unreleased frames has this number.
    fn sealed_frame(&self, number: u16) -> Option<u64> {
        let ahead = (i64::from(number) - self.released as i64).rem_euclid(1 << 16) as u64;
        (ahead < self.sealed).then_some(self.released + ahead)
    }

    /// Where an opened transaction of this number, from the lowest unfinished one on, is
    /// kept.
    fn place_of(&self, number: u32) -> Option<u64> {
        let ahead = (i64::from(number) - self.lowest as i64).rem_euclid(1 << 32) as u64;
        (ahead < self.opened).then_some(self.place(self.lowest + ahead))
    }

    fn place(&self, transaction: u64) -> u64 {
        transaction % self.transaction_window()
    }
}

/// A frame's number modulo 64 chooses its slot (C2).
fn slot_of(frame: u64) -> usize {
    frame as usize % SLOTS
}

/// What a choice comes to.
enum Chosen {
    Lent,
    Slot(Range<usize>),
}

#[cfg(test)]
mod tests;
