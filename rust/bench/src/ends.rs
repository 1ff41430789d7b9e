//! Both kinds of ends behind the same boundary: one call for a frame or a step, which is
//! not inlined. The plain ones are called as the proved ones are, by the calling
//! convention of C and with their results in lent places.

// The functions here are called from Rust alone.
#![allow(improper_ctypes_definitions)]

use crate::plain::card::Card;
use crate::plain::host::{Answer, Host};
use crate::plain::ledger::Ledger;
use crate::plain::table::Table;

/// A host that is called for every frame.
pub trait HostEnd {
    /// What a frame is answered.
    type Answer: Default;
    /// A fresh one at 1 for this peer.
    fn fresh(peer: u16) -> Self;
    /// The same in place of one that was there; gives 0 or a refusal's number.
    fn reopen(&mut self, peer: u16) -> u32;
    /// Receives a frame.
    fn receive(&mut self, frame: &[u8], memory: &mut [u8], answer: &mut Self::Answer);
    /// Data bytes of an accepted frame, otherwise 0.
    fn bytes(answer: &Self::Answer) -> u64;
    /// Kind, number, messages, bytes, completed, refusal, place, run.
    fn words(answer: &Self::Answer) -> [u64; 8];
}

/// A table of cards that is called for every frame. Registering and removing give 0 or a
/// refusal's number.
pub trait TableEnd {
    /// The host of these ends, which answers in the same form.
    type Host: HostEnd;
    /// A fresh one at 1 without cards.
    fn fresh() -> Self;
    /// Registers a card with `size` bytes from `first` on of so many.
    fn register(&mut self, source: u16, first: usize, size: usize, memory: usize) -> u32;
    /// Removes a card.
    fn remove(&mut self, source: u16) -> u32;
    /// Receives a frame, and tells its source.
    fn receive(
        &mut self,
        frame: &[u8],
        memory: &mut [u8],
        source: &mut u16,
        answer: &mut <Self::Host as HostEnd>::Answer,
    );
}

/// A ledger that is called for every block.
pub trait LedgerEnd {
    /// A fresh one; unless `charged` is 0, subscriber 0 was read at 0 and has this total.
    fn fresh(charged: u64) -> Self;
    /// Takes a block; gives 0 or a refusal's number.
    fn take(&mut self, block: &[u8]) -> u32;
    /// A subscriber's total, if it was ever read.
    fn total(&self, subscriber: u32) -> Option<u64>;
    /// The sum of all totals.
    fn sum(&self) -> u64;
}

/// A card that is called for every step; each gives 0 or a refusal's number.
pub trait CardEnd {
    /// A fresh one at 2 for a peer at 1.
    fn fresh(limit: usize, slots: &[u8]) -> Self;
    /// Opens a transaction.
    fn open_transaction(&mut self, count: u16, address: u32, value: u32, number: &mut u32) -> u32;
    /// Adds a message.
    fn add(&mut self, slots: &mut [u8], transaction: u32, address: u32, data: &[u8]) -> u32;
    /// Seals.
    fn seal(&mut self, slots: &[u8], number: &mut u16) -> u32;
    /// Reads acknowledgements.
    fn read(&mut self, frame: &[u8]) -> u32;
    /// Shows: offset, length.
    fn show(&self, slots: &[u8], number: u16, part: &mut [u64; 2]) -> u32;
    /// Chooses: lent or not, offset, length.
    fn choose(&self, slots: &[u8], lent: &[u8], part: &mut [u64; 3]) -> u32;
}

#[inline(never)]
extern "C" fn plain_receive(host: &mut Host, frame: &[u8], memory: &mut [u8], answer: &mut Answer) {
    *answer = host.receive(frame, memory);
}

#[inline(never)]
extern "C" fn plain_reopen(host: &mut Host, own: u16, peer: u16) -> u32 {
    let (fresh, refusal) = Host::open(own, peer);
    *host = fresh;
    refusal.map_or(0, u32::from)
}

impl HostEnd for Host {
    type Answer = Answer;

    fn fresh(peer: u16) -> Host {
        Host::open(1, peer).0
    }

    #[inline(always)]
    fn reopen(&mut self, peer: u16) -> u32 {
        plain_reopen(self, 1, peer)
    }

    #[inline(always)]
    fn receive(&mut self, frame: &[u8], memory: &mut [u8], answer: &mut Answer) {
        plain_receive(self, frame, memory, answer);
    }

    #[inline(always)]
    fn bytes(answer: &Answer) -> u64 {
        match answer {
            Answer::Accepted { bytes, .. } => u64::from(*bytes),
            _ => 0,
        }
    }

    fn words(answer: &Answer) -> [u64; 8] {
        match *answer {
            Answer::Accepted {
                number,
                messages,
                bytes,
                completed,
                run,
            } => [
                1,
                number.into(),
                messages.into(),
                bytes.into(),
                completed.into(),
                0,
                0,
                run.into(),
            ],
            Answer::Again { number, run } => [2, number.into(), 0, 0, 0, 0, 0, run.into()],
            Answer::NoMessages => [3, 0, 0, 0, 0, 0, 0, 0],
            Answer::Refused { number, place } => [4, 0, 0, 0, 0, number.into(), place.into(), 0],
        }
    }
}

#[inline(never)]
extern "C" fn plain_register(
    table: &mut Table,
    source: u16,
    first: usize,
    size: usize,
    memory: usize,
) -> u32 {
    let registered = table.register(source, first as u64, size as u64, memory as u64);
    registered.map_or_else(u32::from, |()| 0)
}

#[inline(never)]
extern "C" fn plain_remove(table: &mut Table, source: u16) -> u32 {
    table.remove(source).map_or_else(u32::from, |()| 0)
}

#[inline(never)]
extern "C" fn plain_table_receive(
    table: &mut Table,
    frame: &[u8],
    memory: &mut [u8],
    source: &mut u16,
    answer: &mut Answer,
) {
    *source = match frame {
        [_, _, low, high, ..] => u16::from_le_bytes([*low, *high]),
        _ => 0,
    };
    *answer = table.receive(frame, memory);
}

impl TableEnd for Table {
    type Host = Host;

    fn fresh() -> Table {
        Table::open(1).0
    }

    #[inline(always)]
    fn register(&mut self, source: u16, first: usize, size: usize, memory: usize) -> u32 {
        plain_register(self, source, first, size, memory)
    }

    #[inline(always)]
    fn remove(&mut self, source: u16) -> u32 {
        plain_remove(self, source)
    }

    #[inline(always)]
    fn receive(&mut self, frame: &[u8], memory: &mut [u8], source: &mut u16, answer: &mut Answer) {
        plain_table_receive(self, frame, memory, source, answer);
    }
}

#[inline(never)]
extern "C" fn plain_take(ledger: &mut Ledger, block: &[u8]) -> u32 {
    ledger.take(block).map_or_else(u32::from, |()| 0)
}

impl LedgerEnd for Ledger {
    fn fresh(charged: u64) -> Ledger {
        let mut ledger = Ledger::open();
        if charged > 0 {
            ledger.put(0, 0, charged);
        }
        ledger
    }

    #[inline(always)]
    fn take(&mut self, block: &[u8]) -> u32 {
        plain_take(self, block)
    }

    fn total(&self, subscriber: u32) -> Option<u64> {
        Ledger::total(self, subscriber)
    }

    fn sum(&self) -> u64 {
        Ledger::sum(self)
    }
}

#[inline(never)]
extern "C" fn plain_open(
    card: &mut Card,
    count: u16,
    address: u32,
    value: u32,
    number: &mut u32,
) -> u32 {
    card.open_transaction(count, address, value, number)
}

#[inline(never)]
extern "C" fn plain_add(
    card: &mut Card,
    slots: &mut [u8],
    transaction: u32,
    address: u32,
    data: &[u8],
) -> u32 {
    card.add(slots, transaction, address, data)
}

#[inline(never)]
extern "C" fn plain_seal(card: &mut Card, slots: &[u8], number: &mut u16) -> u32 {
    card.seal(slots, number)
}

#[inline(never)]
extern "C" fn plain_read(card: &mut Card, frame: &[u8]) -> u32 {
    card.read(frame)
}

#[inline(never)]
extern "C" fn plain_show(card: &Card, slots: &[u8], number: u16, part: &mut [u64; 2]) -> u32 {
    card.show(slots, number, part)
}

#[inline(never)]
extern "C" fn plain_choose(card: &Card, slots: &[u8], lent: &[u8], part: &mut [u64; 3]) -> u32 {
    card.choose(slots, lent, part)
}

/// The run of set marks that a word begins with.
#[inline(never)]
pub extern "C" fn plain_marks(marks: u64) -> u32 {
    marks.trailing_ones()
}

impl CardEnd for Card {
    fn fresh(limit: usize, slots: &[u8]) -> Card {
        Card::open(2, 1, limit, slots).expect("the slots fit the limit")
    }

    #[inline(always)]
    fn open_transaction(&mut self, count: u16, address: u32, value: u32, number: &mut u32) -> u32 {
        plain_open(self, count, address, value, number)
    }

    #[inline(always)]
    fn add(&mut self, slots: &mut [u8], transaction: u32, address: u32, data: &[u8]) -> u32 {
        plain_add(self, slots, transaction, address, data)
    }

    #[inline(always)]
    fn seal(&mut self, slots: &[u8], number: &mut u16) -> u32 {
        plain_seal(self, slots, number)
    }

    #[inline(always)]
    fn read(&mut self, frame: &[u8]) -> u32 {
        plain_read(self, frame)
    }

    #[inline(always)]
    fn show(&self, slots: &[u8], number: u16, part: &mut [u64; 2]) -> u32 {
        plain_show(self, slots, number, part)
    }

    #[inline(always)]
    fn choose(&self, slots: &[u8], lent: &[u8], part: &mut [u64; 3]) -> u32 {
        plain_choose(self, slots, lent, part)
    }
}

/// The proved ends, through the exported functions.
#[cfg(feature = "proved")]
pub mod proved {
    use super::{CardEnd, HostEnd, LedgerEnd, TableEnd};
    use logwhisker::raw::{self, ANSWER_WORDS, CARD_WORDS, HOST_WORDS, LEDGER_WORDS, TABLE_WORDS};

    /// The proved host.
    pub struct Host([u64; HOST_WORDS]);

    impl HostEnd for Host {
        type Answer = [u64; ANSWER_WORDS];

        fn fresh(peer: u16) -> Host {
            let mut words = [0; HOST_WORDS];
            assert_eq!(raw::host_open(&mut words, 1, peer), 0);
            Host(words)
        }

        #[inline(always)]
        fn reopen(&mut self, peer: u16) -> u32 {
            raw::host_open(&mut self.0, 1, peer)
        }

        #[inline(always)]
        fn receive(&mut self, frame: &[u8], memory: &mut [u8], answer: &mut Self::Answer) {
            raw::host_receive(&mut self.0, frame, memory, answer);
        }

        #[inline(always)]
        fn bytes(answer: &Self::Answer) -> u64 {
            // 0 unless accepted.
            answer[3]
        }

        fn words(answer: &Self::Answer) -> [u64; 8] {
            *answer
        }
    }

    /// The proved table.
    pub struct Table([u64; TABLE_WORDS]);

    impl TableEnd for Table {
        type Host = Host;

        fn fresh() -> Table {
            let mut words = [0; TABLE_WORDS];
            assert_eq!(raw::table_open(&mut words, 1), 0);
            Table(words)
        }

        #[inline(always)]
        fn register(&mut self, source: u16, first: usize, size: usize, memory: usize) -> u32 {
            raw::table_register(&mut self.0, source, first, size, memory)
        }

        #[inline(always)]
        fn remove(&mut self, source: u16) -> u32 {
            raw::table_remove(&mut self.0, source)
        }

        #[inline(always)]
        fn receive(
            &mut self,
            frame: &[u8],
            memory: &mut [u8],
            source: &mut u16,
            answer: &mut [u64; ANSWER_WORDS],
        ) {
            raw::table_receive(&mut self.0, frame, memory, source, answer);
        }
    }

    /// The proved ledger.
    pub struct Ledger(Box<[u64; LEDGER_WORDS]>);

    impl LedgerEnd for Ledger {
        fn fresh(charged: u64) -> Ledger {
            let mut words = Box::new([0; LEDGER_WORDS]);
            raw::ledger_open(&mut words);
            if charged > 0 {
                (words[0], words[1]) = (charged, 1 << 32);
                words[LEDGER_WORDS - 1] = charged;
            }
            Ledger(words)
        }

        #[inline(always)]
        fn take(&mut self, block: &[u8]) -> u32 {
            raw::ledger_take(&mut self.0, block)
        }

        fn total(&self, subscriber: u32) -> Option<u64> {
            let mut total = 0;
            let read = raw::ledger_total(&self.0, subscriber, &mut total);
            (read != 0).then_some(total)
        }

        fn sum(&self) -> u64 {
            raw::ledger_sum(&self.0)
        }
    }

    /// The proved card.
    pub struct Card([u64; CARD_WORDS]);

    impl CardEnd for Card {
        fn fresh(limit: usize, slots: &[u8]) -> Card {
            let mut words = [0; CARD_WORDS];
            assert_eq!(raw::card_open(&mut words, 2, 1, limit, slots), 0);
            Card(words)
        }

        #[inline(always)]
        fn open_transaction(
            &mut self,
            count: u16,
            address: u32,
            value: u32,
            number: &mut u32,
        ) -> u32 {
            raw::card_open_transaction(&mut self.0, count, address, value, number)
        }

        #[inline(always)]
        fn add(&mut self, slots: &mut [u8], transaction: u32, address: u32, data: &[u8]) -> u32 {
            raw::card_add(&mut self.0, slots, transaction, address, data)
        }

        #[inline(always)]
        fn seal(&mut self, slots: &[u8], number: &mut u16) -> u32 {
            raw::card_seal(&mut self.0, slots, number)
        }

        #[inline(always)]
        fn read(&mut self, frame: &[u8]) -> u32 {
            raw::card_read(&mut self.0, frame)
        }

        #[inline(always)]
        fn show(&self, slots: &[u8], number: u16, part: &mut [u64; 2]) -> u32 {
            raw::card_show(&self.0, slots, number, part)
        }

        #[inline(always)]
        fn choose(&self, slots: &[u8], lent: &[u8], part: &mut [u64; 3]) -> u32 {
            raw::card_choose(&self.0, slots, lent, part)
        }
    }
}
