//! What a card, a host, a table and a ledger are to those who drive them, so that lists and
//! scripts can be run on the reference and on ends with a fault alike.

use crate::card::Card;
use crate::host::{Answer, Host};
use crate::ledger::Ledger;
use crate::table::{Region, Registered, Table};
use crate::wire::FRAME_HEADER;

/// The calls on a card.
pub trait CardEnd {
    /// See [`Card::open_transaction`].
    fn open_transaction(&mut self, count: u16, address: u32, value: u32) -> Result<u32, u8>;
    /// See [`Card::add`].
    fn add(
        &mut self,
        transaction: u32,
        address: u32,
        data: &[u8],
        slots: &mut [u8],
    ) -> Result<(), u8>;
    /// See [`Card::seal`].
    fn seal(&mut self, slots: &[u8]) -> Result<u16, u8>;
    /// See [`Card::read`].
    fn read(&mut self, frame: &[u8]) -> Result<(), u8>;
    /// The reference card inside, for the calls that change nothing.
    fn card(&self) -> &Card;
}

/// The calls on a host.
pub trait HostEnd {
    /// See [`Host::receive`].
    fn receive(&mut self, frame: &[u8], memory: &mut [u8]) -> Answer;
    /// See [`Host::acknowledgement`].
    fn acknowledgement(&self, answer: Answer, next_number: u16) -> Option<[u8; FRAME_HEADER]>;
    /// The reference host inside, whose state is told.
    fn host(&self) -> &Host;
    /// Goes on with another state.
    fn put(&mut self, host: Host);
}

/// The calls on a table.
pub trait TableEnd {
    /// See [`Table::register`].
    fn register(&mut self, source: u16, region: Region, memory: u64) -> Result<(), u8>;
    /// See [`Table::adopt`].
    fn adopt(&mut self, pair: &Host, region: Region, memory: u64) -> Result<(), u8>;
    /// See [`Table::remove`].
    fn remove(&mut self, source: u16) -> Result<(), u8>;
    /// See [`Table::take`].
    fn take(&self, source: u16) -> Result<Host, u8>;
    /// See [`Table::receive`].
    fn receive(&mut self, frame: &[u8], memory: &mut [u8]) -> Answer;
    /// See [`Table::acknowledgement`].
    fn acknowledgement(
        &self,
        answer: Answer,
        source: u16,
        next_number: u16,
    ) -> Option<[u8; FRAME_HEADER]>;
    /// See [`Table::own`].
    fn own(&self) -> u16;
    /// See [`Table::cards`].
    fn cards(&self) -> Vec<Registered>;
}

/// The calls on a ledger.
pub trait LedgerEnd {
    /// See [`Ledger::take`].
    fn take(&mut self, block: &[u8]) -> Result<(), u8>;
    /// See [`Ledger::total`].
    fn total(&self, subscriber: u32) -> Option<u64>;
    /// See [`Ledger::sum`].
    fn sum(&self) -> u64;
}

/// Where the numbers of both ends start: 0 and 0 unless a test wants to be near the
/// end of a number space.
#[derive(Clone, Copy, Debug, Default, PartialEq, Eq)]
pub struct Start {
    /// The first frame's number.
    pub frame: u16,
    /// The first transaction's number.
    pub transaction: u32,
}

/// A kind of ends, which opens them.
pub trait Ends {
    /// Its card.
    type Card: CardEnd;
    /// Its host.
    type Host: HostEnd;
    /// Its table.
    type Table: TableEnd;
    /// Its ledger.
    type Ledger: LedgerEnd;

    /// As [`Card::open`]; an end that is not refused starts as told.
    fn open_card(
        &self,
        own: u16,
        peer: u16,
        limit: usize,
        slots: &[u8],
        start: Start,
    ) -> (Self::Card, Option<u8>);

    /// As [`Host::open`]; an end that is not refused starts as told.
    fn open_host(&self, own: u16, peer: u16, start: Start) -> (Self::Host, Option<u8>);

    /// As [`Table::open`].
    fn open_table(&self, own: u16) -> (Self::Table, Option<u8>);

    /// A ledger that starts as told: an empty one unless a test wants to be near the end of
    /// its sums.
    fn open_ledger(&self, start: &Ledger) -> Self::Ledger;
}

/// The reference's own ends.
#[derive(Clone, Copy, Debug, Default, PartialEq, Eq)]
pub struct Sound;

impl Ends for Sound {
    type Card = Card;
    type Host = Host;
    type Table = Table;
    type Ledger = Ledger;

    fn open_card(
        &self,
        own: u16,
        peer: u16,
        limit: usize,
        slots: &[u8],
        start: Start,
    ) -> (Card, Option<u8>) {
        match Card::open(own, peer, limit, slots) {
            (_, None) => {
                let card = Card::starting_at(own, peer, limit, start.frame, start.transaction);
                (card, None)
            }
            refused => refused,
        }
    }

    fn open_host(&self, own: u16, peer: u16, start: Start) -> (Host, Option<u8>) {
        match Host::open(own, peer) {
            (_, None) => {
                let host = Host::starting_at(own, peer, start.frame, start.transaction);
                (host, None)
            }
            refused => refused,
        }
    }

    fn open_table(&self, own: u16) -> (Table, Option<u8>) {
        Table::open(own)
    }

    fn open_ledger(&self, start: &Ledger) -> Ledger {
        start.clone()
    }
}

impl CardEnd for Card {
    fn open_transaction(&mut self, count: u16, address: u32, value: u32) -> Result<u32, u8> {
        Card::open_transaction(self, count, address, value)
    }

    fn add(
        &mut self,
        transaction: u32,
        address: u32,
        data: &[u8],
        slots: &mut [u8],
    ) -> Result<(), u8> {
        Card::add(self, transaction, address, data, slots)
    }

    fn seal(&mut self, slots: &[u8]) -> Result<u16, u8> {
        Card::seal(self, slots)
    }

    fn read(&mut self, frame: &[u8]) -> Result<(), u8> {
        Card::read(self, frame)
    }

    fn card(&self) -> &Card {
        self
    }
}

impl HostEnd for Host {
    fn receive(&mut self, frame: &[u8], memory: &mut [u8]) -> Answer {
        Host::receive(self, frame, memory)
    }

    fn acknowledgement(&self, answer: Answer, next_number: u16) -> Option<[u8; FRAME_HEADER]> {
        Host::acknowledgement(self, answer, next_number)
    }

    fn host(&self) -> &Host {
        self
    }

    fn put(&mut self, host: Host) {
        *self = host;
    }
}

impl TableEnd for Table {
    fn register(&mut self, source: u16, region: Region, memory: u64) -> Result<(), u8> {
        Table::register(self, source, region, memory)
    }

    fn adopt(&mut self, pair: &Host, region: Region, memory: u64) -> Result<(), u8> {
        Table::adopt(self, pair, region, memory)
    }

    fn remove(&mut self, source: u16) -> Result<(), u8> {
        Table::remove(self, source)
    }

    fn take(&self, source: u16) -> Result<Host, u8> {
        Table::take(self, source)
    }

    fn receive(&mut self, frame: &[u8], memory: &mut [u8]) -> Answer {
        Table::receive(self, frame, memory)
    }

    fn acknowledgement(
        &self,
        answer: Answer,
        source: u16,
        next_number: u16,
    ) -> Option<[u8; FRAME_HEADER]> {
        Table::acknowledgement(self, answer, source, next_number)
    }

    fn own(&self) -> u16 {
        Table::own(self)
    }

    fn cards(&self) -> Vec<Registered> {
        Table::cards(self)
    }
}

impl LedgerEnd for Ledger {
    fn take(&mut self, block: &[u8]) -> Result<(), u8> {
        Ledger::take(self, block)
    }

    fn total(&self, subscriber: u32) -> Option<u64> {
        Ledger::total(self, subscriber)
    }

    fn sum(&self) -> u64 {
        Ledger::sum(self)
    }
}
