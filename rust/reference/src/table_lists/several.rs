//! Demand 3 for each card of a table, from its registering to its removal: several cards,
//! each with a book of its own over its region, run beside each other at one table and in
//! one memory. Whatever one of them does, the bytes of the others and those outside all
//! regions stay, and all accepted answers sum to what the books hold.

use crate::book::Book;
use crate::demand::{Breach, Care, Setting, System};
use crate::ends::{Ends, HostEnd, Start, TableEnd};
use crate::host::{Answer, Host};
use crate::ledger::Ledger;
use crate::list::{Call, Outcome};
use crate::premises;
use crate::refusal;
use crate::replay::Totals;
use crate::table::Region;
use crate::wire::FRAME_HEADER;
use std::cell::RefCell;
use std::collections::BTreeMap;
use std::rc::Rc;

mod made;

pub use made::{MET, Made, make};

/// A call of such a list.
#[derive(Clone, Debug, PartialEq, Eq)]
pub enum TableCall {
    /// A card registers, and its end is opened.
    Register {
        /// Its ID.
        source: u16,
        /// Its region, which lies in memory and is free.
        region: Region,
        /// Its frame limit L.
        limit: usize,
        /// Where its numbers start. Other starts than 0 are made by adopting such a pair.
        start: Start,
    },
    /// A card is removed, and its end is gone.
    Remove(u16),
    /// A card's pair is taken out, removed and adopted with this region, to which its bytes
    /// are brought.
    Move(u16, Region),
    /// A card's call, or the arrival of a copy of what it sent.
    Of {
        /// The card.
        source: u16,
        /// The call.
        call: Call,
        /// How much of the memory is lent, the card's region at least.
        lent: usize,
    },
    /// A frame of a source that is not registered, as one that was left over is.
    Stray(Vec<u8>),
}

/// What does not hold after a call.
#[derive(Clone, Debug, PartialEq, Eq)]
pub enum Broken {
    /// The list keeps no premise of demand 3 on these ends, which says nothing of it.
    Premise,
    /// A registering, a removal or a move that the rules allow is refused.
    Refused(u8),
    /// A sentence of demand 3 for the card.
    Demand(u16, Breach),
    /// Bytes that are not the card's, outside all regions or in another one, have changed.
    Memory,
    /// A frame of no registered source is not answered with 3.
    Stray(Answer),
    /// All accepted answers do not sum to what the books hold.
    Sums,
}

/// The table and what its cards share.
struct Shared<T> {
    table: T,
    memory: Vec<u8>,
    /// The regions as the list gives them.
    regions: BTreeMap<u16, Region>,
    /// How much of the memory the next frame comes with.
    lent: usize,
    /// What all accepted answers sum to.
    answered: Totals,
}

impl<T: TableEnd> Shared<T> {
    fn bytes_of(&mut self, source: u16) -> &mut [u8] {
        let region = self.regions[&source].of(&mut self.memory);
        region.expect("the list gives regions that lie in memory")
    }
}

/// A card's place in the table, as its host.
pub struct Place<T> {
    shared: Rc<RefCell<Shared<T>>>,
    source: u16,
    /// As it was after the latest frame.
    pair: Host,
}

impl<T: TableEnd> HostEnd for Place<T> {
    /// The memory given here is the card's copy of its region.
    fn receive(&mut self, frame: &[u8], memory: &mut [u8]) -> Answer {
        let shared = &mut *self.shared.borrow_mut();
        let lent = shared.lent;
        let answer = shared.table.receive(frame, &mut shared.memory[..lent]);
        shared.answered.add(answer);
        memory.copy_from_slice(shared.bytes_of(self.source));
        if let Ok(pair) = shared.table.take(self.source) {
            self.pair = pair;
        }
        answer
    }

    fn acknowledgement(&self, answer: Answer, next_number: u16) -> Option<[u8; FRAME_HEADER]> {
        let table = &self.shared.borrow().table;
        table.acknowledgement(answer, self.source, next_number)
    }

    fn host(&self) -> &Host {
        &self.pair
    }

    fn put(&mut self, host: Host) {
        self.pair = host;
    }
}

/// Cards with a place in the table each, which is given to them before they are opened.
struct Joined<E: Ends> {
    ends: E,
    shared: Rc<RefCell<Shared<E::Table>>>,
}

impl<E: Ends> Ends for Joined<E> {
    type Card = E::Card;
    type Host = Place<E::Table>;
    type Table = E::Table;
    type Ledger = E::Ledger;

    fn open_card(
        &self,
        own: u16,
        peer: u16,
        limit: usize,
        slots: &[u8],
        start: Start,
    ) -> (E::Card, Option<u8>) {
        self.ends.open_card(own, peer, limit, slots, start)
    }

    fn open_host(&self, own: u16, peer: u16, start: Start) -> (Place<E::Table>, Option<u8>) {
        let place = Place {
            shared: Rc::clone(&self.shared),
            source: peer,
            pair: Host::starting_at(own, peer, start.frame, start.transaction),
        };
        (place, None)
    }

    fn open_table(&self, own: u16) -> (E::Table, Option<u8>) {
        self.ends.open_table(own)
    }

    fn open_ledger(&self, start: &Ledger) -> E::Ledger {
        self.ends.open_ledger(start)
    }
}

/// Calls between two sums over all books.
const SELDOM: u64 = 32;

/// Several cards at a table, with their books.
pub struct Several<E: Ends> {
    own: u16,
    joined: Joined<E>,
    cards: BTreeMap<u16, System<Joined<E>>>,
    /// Memory as the books have it.
    kept: Vec<u8>,
    /// What the books of removed cards hold.
    gone: Totals,
    calls: u64,
}

impl<E: Ends> Several<E> {
    /// A table without cards. Our ID must not be 0.
    pub fn new(ends: E, own: u16, memory: &[u8]) -> Several<E> {
        let (table, None) = ends.open_table(own) else {
            panic!("the table's opening is refused");
        };
        let shared = Shared {
            table,
            memory: memory.to_vec(),
            regions: BTreeMap::new(),
            lent: 0,
            answered: Totals::default(),
        };
        let shared = Rc::new(RefCell::new(shared));
        Several {
            own,
            joined: Joined { ends, shared },
            cards: BTreeMap::new(),
            kept: memory.to_vec(),
            gone: Totals::default(),
            calls: 0,
        }
    }

    /// Makes a call, and gives what a card's was answered unless something is broken by it.
    pub fn step(&mut self, call: &TableCall) -> Result<Option<Outcome>, Broken> {
        let outcome = match call {
            TableCall::Register {
                source,
                region,
                limit,
                start,
            } => self
                .register(*source, *region, *limit, *start)
                .map(|()| None),
            TableCall::Remove(source) => self.remove(*source).map(|()| None),
            TableCall::Move(source, region) => self.move_to(*source, *region).map(|()| None),
            TableCall::Of { source, call, lent } => self.of(*source, call, *lent).map(Some),
            TableCall::Stray(frame) => self.stray(frame).map(|()| None),
        }?;
        if self.joined.shared.borrow().memory != self.kept {
            return Err(Broken::Memory);
        }
        self.calls += 1;
        if self.calls.is_multiple_of(SELDOM) {
            self.check_sums()?;
        }
        Ok(outcome)
    }

    fn register(
        &mut self,
        source: u16,
        region: Region,
        limit: usize,
        start: Start,
    ) -> Result<(), Broken> {
        let shared = &mut *self.joined.shared.borrow_mut();
        let length = shared.memory.len() as u64;
        let done = if start == Start::default() {
            shared.table.register(source, region, length)
        } else {
            let pair = Host::starting_at(self.own, source, start.frame, start.transaction);
            shared.table.adopt(&pair, region, length)
        };
        done.map_err(Broken::Refused)?;
        shared.regions.insert(source, region);
        let setting = Setting {
            card: source,
            host: self.own,
            limit,
            memory: shared.bytes_of(source).to_vec(),
            start,
        };
        let system = System::new(&self.joined, &setting, Care::EveryCall);
        self.cards.insert(source, system);
        Ok(())
    }

    fn remove(&mut self, source: u16) -> Result<(), Broken> {
        let system = self.cards.remove(&source).ok_or(Broken::Premise)?;
        finish(source, &system)?;
        self.gone = sum(self.gone, system.book().totals());
        let shared = &mut *self.joined.shared.borrow_mut();
        shared.regions.remove(&source);
        shared.table.remove(source).map_err(Broken::Refused)
    }

    fn move_to(&mut self, source: u16, region: Region) -> Result<(), Broken> {
        let system = self.cards.get_mut(&source).ok_or(Broken::Premise)?;
        let bytes = system.memory().to_vec();
        let shared = &mut *self.joined.shared.borrow_mut();
        let length = shared.memory.len() as u64;
        let pair = shared.table.take(source).map_err(Broken::Refused)?;
        shared.table.remove(source).map_err(Broken::Refused)?;
        let adopted = shared.table.adopt(&pair, region, length);
        adopted.map_err(Broken::Refused)?;
        shared.regions.insert(source, region);
        shared.bytes_of(source).copy_from_slice(&bytes);
        let kept = region.of(&mut self.kept);
        kept.ok_or(Broken::Premise)?.copy_from_slice(&bytes);
        let restarted = system.restart(pair, &bytes);
        restarted.map_err(|breach| Broken::Demand(source, breach))
    }

    fn of(&mut self, source: u16, call: &Call, lent: usize) -> Result<Outcome, Broken> {
        let system = self.cards.get_mut(&source).ok_or(Broken::Premise)?;
        if !premises::in_time(system.book(), call) {
            return Err(Broken::Premise);
        }
        let region = {
            let shared = &mut *self.joined.shared.borrow_mut();
            shared.lent = lent;
            shared.regions[&source]
        };
        let outcome = system.step(call);
        let outcome = outcome.map_err(|breach| Broken::Demand(source, breach))?;
        let kept = region.of(&mut self.kept);
        let kept = kept.ok_or(Broken::Premise)?;
        kept.copy_from_slice(system.memory());
        Ok(outcome)
    }

    fn stray(&mut self, frame: &[u8]) -> Result<(), Broken> {
        let shared = &mut *self.joined.shared.borrow_mut();
        let answer = shared.table.receive(frame, &mut shared.memory);
        let refused = Answer::Refused {
            number: refusal::WRONG_ID,
            place: 0,
        };
        match answer == refused {
            true => Ok(()),
            false => Err(Broken::Stray(answer)),
        }
    }

    fn check_sums(&self) -> Result<(), Broken> {
        let books = self.cards.values().map(|system| system.book().totals());
        let all = books.fold(self.gone, sum);
        match self.joined.shared.borrow().answered == all {
            true => Ok(()),
            false => Err(Broken::Sums),
        }
    }

    /// What is due at the end of a list.
    pub fn finish(&self) -> Result<(), Broken> {
        for (source, system) in &self.cards {
            finish(*source, system)?;
        }
        self.check_sums()
    }

    /// The region of a card that is registered.
    fn region(&self, source: u16) -> Region {
        self.joined.shared.borrow().regions[&source]
    }

    /// The book of a card that is registered.
    pub fn book(&self, source: u16) -> &Book {
        self.cards[&source].book()
    }

    /// The bytes that the shared memory has in the region of a card that is registered.
    pub fn bytes_of(&self, source: u16) -> Vec<u8> {
        self.joined.shared.borrow_mut().bytes_of(source).to_vec()
    }
}

/// A card's list is over: what demand 3 claims of it has to hold, if it keeps the premises.
fn finish<E: Ends>(source: u16, system: &System<E>) -> Result<(), Broken> {
    let allowed = premises::writes_allowed(system.book(), system.memory().len());
    allowed.map_err(|_| Broken::Premise)?;
    let finished = system.finish();
    finished.map_err(|breach| Broken::Demand(source, breach))
}

fn sum(one: Totals, other: Totals) -> Totals {
    Totals {
        messages: one.messages + other.messages,
        bytes: one.bytes + other.bytes,
        completed: one.completed + other.completed,
    }
}

/// Runs a given list on a table of such ends, up to what it breaks if there is something.
pub fn check<E: Ends>(ends: E, made: &Made) -> Result<(), Broken> {
    let mut several = Several::new(ends, made.own, &made.memory);
    for call in &made.calls {
        several.step(call)?;
    }
    several.finish()
}
