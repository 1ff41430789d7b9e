//! A charging host with up to 16 cards over one memory: each card has a region of the memory
//! and a pair of its own, and no card's frames change what another is answered or has written.

use crate::FRAME_HEADER;
use crate::host::{Answer, Host};
use crate::raw::{self, ANSWER_WORDS, TABLE_DESCRIPTION_WORDS, TABLE_WORDS};
use crate::refusal::Refusal;
use std::ops::Range;

/// A card at a table.
#[derive(Clone, Debug, PartialEq, Eq)]
pub struct Registered {
    /// Its ID, the source of its frames.
    pub source: u16,
    /// Its bytes of the memory.
    pub region: Range<usize>,
}

/// The host's end of up to 16 connections. Unless a frame is accepted, table and memory stay as
/// they were; what else is refused leaves the table as it was.
///
/// ```
/// use logwhisker::{Answer, Card, Chosen, Table};
///
/// let mut memory = vec![0; 8_192];
/// let mut table = Table::open(1)?;
/// table.register(2, 0, 4_096, memory.len())?;
/// table.register(3, 4_096, 4_096, memory.len())?;
///
/// let mut slots = vec![0; 64 * 1_500];
/// let mut card = Card::open(3, 1, 1_500, &slots)?;
/// let transaction = card.open_transaction(1, 64, 7)?;
/// card.add(&mut slots, transaction, 0, b"units")?;
/// card.seal(&slots)?;
/// let Chosen::Frame(frame) = card.choose(&slots, &[])? else { unreachable!() };
/// let (answer, source) = table.receive(frame, &mut memory);
/// assert!(matches!(answer, Answer::Accepted { completed: 1, .. }));
/// assert_eq!(&memory[4_096..4_101], b"units");
/// if let Some(acknowledgement) = table.acknowledge(&answer, source, 0) {
///     card.read(&acknowledgement)?;
/// }
/// # Ok::<(), logwhisker::Refusal>(())
/// ```
#[derive(Clone, Debug, PartialEq, Eq)]
pub struct Table {
    words: [u64; TABLE_WORDS],
}

impl Table {
    /// A table that is not open: with ID 0 and no cards, as a refused opening leaves it.
    pub fn new() -> Table {
        let mut table = Table {
            words: [0; TABLE_WORDS],
        };
        // Refused, and that is what is wanted.
        let _ = table.reopen(0);
        table
    }

    /// A table of this own ID without cards; refused if it is 0.
    pub fn open(own: u16) -> Result<Table, Refusal> {
        let mut table = Table {
            words: [0; TABLE_WORDS],
        };
        table.reopen(own)?;
        Ok(table)
    }

    /// Starts anew; where that is refused, the table is as [`Table::new`] makes it.
    pub fn reopen(&mut self, own: u16) -> Result<(), Refusal> {
        Refusal::check(raw::table_open(&mut self.words, own))
    }

    /// Registers a card by its ID with `size` bytes from `first` on of a memory of `memory`
    /// bytes; it starts as a fresh [`Host`] does. Refused, in this order, if an ID is 0, the
    /// card is registered, the region is empty or ends past the memory, it overlaps another
    /// card's, or 16 cards are there.
    pub fn register(
        &mut self,
        source: u16,
        first: usize,
        size: usize,
        memory: usize,
    ) -> Result<(), Refusal> {
        Refusal::check(raw::table_register(
            &mut self.words,
            source,
            first,
            size,
            memory,
        ))
    }

    /// Removes a card; refused if it is not registered. Memory keeps what it has written.
    pub fn remove(&mut self, source: u16) -> Result<(), Refusal> {
        Refusal::check(raw::table_remove(&mut self.words, source))
    }

    /// Answers a frame for the card that is its source, and writes what an accepted one says
    /// into that card's region of `memory`. Gives the source that the frame names beside the
    /// answer. The same memory is to be lent each time, unchanged in between.
    pub fn receive(&mut self, frame: &[u8], memory: &mut [u8]) -> (Answer, u16) {
        let mut answer = [0; ANSWER_WORDS];
        let mut source = 0;
        raw::table_receive(&mut self.words, frame, memory, &mut source, &mut answer);
        (Answer::from_words(&answer), source)
    }

    /// The acknowledgement to be sent to a source for an answer, if it calls for one; as
    /// [`Host::acknowledge`].
    pub fn acknowledge(
        &self,
        answer: &Answer,
        source: u16,
        number: u16,
    ) -> Option<[u8; FRAME_HEADER]> {
        let mut frame = [0; FRAME_HEADER];
        let words = answer.words();
        let due = raw::table_acknowledge(&self.words, source, &words, number, &mut frame);
        (due != 0).then_some(frame)
    }

    /// A copy of what the table knows of a card, as a host whose addresses count from the
    /// region's first byte; refused if the card is not registered.
    pub fn take(&self, source: u16) -> Result<Host, Refusal> {
        let mut words = *Host::new().words();
        Refusal::check(raw::table_take(&self.words, source, &mut words))?;
        Ok(Host::from_words(words))
    }

    /// Registers a host's peer with what the host knows of it in place of a fresh start; refused
    /// as [`Table::register`] is, with [`Refusal::ID_ZERO`] also if the host's own ID is not the
    /// table's.
    pub fn adopt(
        &mut self,
        host: &Host,
        first: usize,
        size: usize,
        memory: usize,
    ) -> Result<(), Refusal> {
        Refusal::check(raw::table_adopt(
            &mut self.words,
            host.words(),
            first,
            size,
            memory,
        ))
    }

    /// Our ID, or 0 if the table is not open.
    pub fn own(&self) -> u16 {
        self.describe()[0] as u16
    }

    /// The registered cards, in no order that is promised.
    pub fn cards(&self) -> Vec<Registered> {
        let words = self.describe();
        let entries: &[[u64; 3]] = words[1..].as_chunks().0;
        let taken = entries.iter().filter(|entry| entry[0] != 0);
        taken
            .map(|&[source, first, size]| Registered {
                source: source as u16,
                region: first as usize..(first as usize).saturating_add(size as usize),
            })
            .collect()
    }

    fn describe(&self) -> [u64; TABLE_DESCRIPTION_WORDS] {
        let mut words = [0; TABLE_DESCRIPTION_WORDS];
        raw::table_describe(&self.words, &mut words);
        words
    }

    /// The state that these words are; any words are one.
    pub fn from_words(words: [u64; TABLE_WORDS]) -> Table {
        Table { words }
    }

    /// The words of the state, to be kept and not to be looked into.
    pub fn words(&self) -> &[u64; TABLE_WORDS] {
        &self.words
    }
}

impl Default for Table {
    fn default() -> Table {
        Table::new()
    }
}
