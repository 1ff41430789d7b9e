//! The proved table as the reference's lists drive one, with the reference's cards, hosts
//! and ledgers. On demand the whole table is started anew again and again: each pair is taken
//! out and stored as text, a table is opened, and each pair is read and adopted there.

use logwhisker::{Answer as Answered, Host as Pair, LONGEST_TEXT, Refusal, Table};
use reference::card::Card;
use reference::ends::{Ends, Sound, Start, TableEnd};
use reference::host::{Answer, Host};
use reference::ledger::Ledger;
use reference::table::{Region, Registered};
use reference::wire::FRAME_HEADER;

/// Opens proved tables.
#[derive(Clone, Copy, Debug)]
pub struct Proved {
    /// Calls from one start of the whole table to the next, if it is started anew.
    pub restart_after: Option<u64>,
}

/// A proved table.
pub struct ProvedTable {
    table: Table,
    restart_after: Option<u64>,
    calls: u64,
}

impl Ends for Proved {
    type Card = Card;
    type Host = Host;
    type Table = ProvedTable;
    type Ledger = Ledger;

    fn open_card(
        &self,
        own: u16,
        peer: u16,
        limit: usize,
        slots: &[u8],
        start: Start,
    ) -> (Card, Option<u8>) {
        Sound.open_card(own, peer, limit, slots, start)
    }

    fn open_host(&self, own: u16, peer: u16, start: Start) -> (Host, Option<u8>) {
        Sound.open_host(own, peer, start)
    }

    fn open_table(&self, own: u16) -> (ProvedTable, Option<u8>) {
        let mut table = Table::new();
        let refusal = table.reopen(own).map_err(number).err();
        let table = ProvedTable {
            table,
            restart_after: self.restart_after,
            calls: 0,
        };
        (table, refusal)
    }

    fn open_ledger(&self, start: &Ledger) -> Ledger {
        Sound.open_ledger(start)
    }
}

fn number(refusal: Refusal) -> u8 {
    u8::try_from(refusal.number()).expect("refusals are small numbers")
}

impl ProvedTable {
    /// Counts a call, before which the table may be started anew.
    fn called(&mut self) {
        self.calls += 1;
        let due = |after| self.calls.is_multiple_of(after);
        if self.restart_after.is_some_and(due) {
            self.restart();
        }
    }

    fn restart(&mut self) {
        let stored: Vec<(Vec<u8>, std::ops::Range<usize>)> = self
            .table
            .cards()
            .into_iter()
            .map(|card| {
                let pair = self.table.take(card.source).expect("it is registered");
                let mut text = vec![0; LONGEST_TEXT];
                let length = pair.store(&mut text).expect("the longest text fits");
                text.truncate(length);
                (text, card.region)
            })
            .collect();
        let mut table = Table::open(self.table.own()).expect("no ID is 0");
        // Other places than before.
        for (text, region) in stored.into_iter().rev() {
            let pair = Pair::from_text(&text).expect("it was stored so");
            let adopted = table.adopt(&pair, region.start, region.len(), region.end);
            adopted.expect("its region is free");
        }
        self.table = table;
    }
}

impl TableEnd for ProvedTable {
    fn register(&mut self, source: u16, region: Region, memory: u64) -> Result<(), u8> {
        self.called();
        let [first, length, memory] = [region.first, region.length, memory].map(|n| n as usize);
        let registered = self.table.register(source, first, length, memory);
        registered.map_err(number)
    }

    fn adopt(&mut self, pair: &Host, region: Region, memory: u64) -> Result<(), u8> {
        self.called();
        let [first, length, memory] = [region.first, region.length, memory].map(|n| n as usize);
        let pair = Pair::from_words(pair.to_words());
        let adopted = self.table.adopt(&pair, first, length, memory);
        adopted.map_err(number)
    }

    fn remove(&mut self, source: u16) -> Result<(), u8> {
        self.called();
        self.table.remove(source).map_err(number)
    }

    fn take(&self, source: u16) -> Result<Host, u8> {
        let taken = self.table.take(source).map_err(number)?;
        Ok(Host::from_words(taken.words()))
    }

    fn receive(&mut self, frame: &[u8], memory: &mut [u8]) -> Answer {
        self.called();
        let (answer, _) = self.table.receive(frame, memory);
        match answer {
            Answered::Accepted {
                number,
                messages,
                bytes,
                completed,
                run,
            } => Answer::Accepted {
                number,
                messages: messages.into(),
                bytes: bytes.into(),
                completed: completed.into(),
                run,
            },
            Answered::Again { number, run } => Answer::Again { number, run },
            Answered::NoMessages => Answer::NoMessages,
            Answered::Refused { refusal, place } => Answer::Refused {
                number: number(refusal),
                place: place as usize,
            },
        }
    }

    fn acknowledgement(
        &self,
        answer: Answer,
        source: u16,
        next_number: u16,
    ) -> Option<[u8; FRAME_HEADER]> {
        let answer = match answer {
            Answer::Accepted { number, run, .. } => Answered::Accepted {
                number,
                messages: 0,
                bytes: 0,
                completed: 0,
                run,
            },
            Answer::Again { number, run } => Answered::Again { number, run },
            Answer::NoMessages | Answer::Refused { .. } => Answered::NoMessages,
        };
        self.table.acknowledge(&answer, source, next_number)
    }

    fn own(&self) -> u16 {
        self.table.own()
    }

    fn cards(&self) -> Vec<Registered> {
        let cards = self.table.cards().into_iter();
        let cards = cards.map(|card| Registered {
            source: card.source,
            region: Region {
                first: card.region.start as u64,
                length: card.region.len() as u64,
            },
        });
        let mut cards: Vec<Registered> = cards.collect();
        cards.sort_by_key(|card| card.region.first);
        cards
    }
}
