//! Demand 3 as a check: a card and a host run a list, the book is fed beside them, and
//! after every call all that the demand claims of the list so far is held against it.

use crate::book::{Book, Expected};
use crate::card::SLOTS;
use crate::ends::{CardEnd, Ends, HostEnd, Start};
use crate::host::{Answer, Host};
use crate::list::{Call, Outcome};
use crate::replay::Totals;
use kept::KeptMemory;
use std::rc::Rc;

mod kept;

/// What a list starts from.
#[derive(Clone, Debug, PartialEq, Eq)]
pub struct Setting {
    /// The card's ID.
    pub card: u16,
    /// The host's ID.
    pub host: u16,
    /// The card's frame limit L.
    pub limit: usize,
    /// The host's memory at the start.
    pub memory: Vec<u8>,
    /// The first numbers.
    pub start: Start,
}

/// A byte that fills the slots at the start, so that what is not written shows.
pub const UNWRITTEN: u8 = 0xa5;

/// Calls between two costly checks of a long list.
const SELDOM: u64 = 20_000;

/// A sentence of demand 3 that does not hold after a call.
#[derive(Clone, Debug, PartialEq, Eq)]
pub enum Breach {
    /// An arrival was not answered as the book says.
    Answer(Expected, Answer),
    /// A sealed frame that reached the host was not accepted exactly once.
    AcceptedOnce(usize),
    /// The card released other frames than the book, or one that was not accepted.
    Released,
    /// Memory is not the book's.
    Memory,
    /// The accepted answers do not sum to what accepted frames hold.
    Sums,
    /// All transactions are finished, and the sums or memory are not theirs.
    Settled,
}

/// How often the costly parts of the check are made.
#[derive(Clone, Copy, Debug, PartialEq, Eq)]
pub enum Care {
    /// After every call.
    EveryCall,
    /// Now and then; the rest of the check is made after every call all the same.
    LongList,
}

/// Two ends in a list, with the book.
pub struct System<E: Ends> {
    card: E::Card,
    slots: Vec<u8>,
    host: E::Host,
    memory: Vec<u8>,
    /// Bytes handed out by showings and choices, refused ones included.
    handed_out: Vec<Rc<[u8]>>,
    /// Acknowledgements that answers called for.
    acknowledgements: Vec<Vec<u8>>,
    book: Book,
    kept: KeptMemory,
    care: Care,
    calls: u64,
    /// What the host's accepted answers sum to.
    answered: Totals,
    /// How often the host accepted each frame.
    times_accepted: Vec<u32>,
}

impl<E: Ends> System<E> {
    /// Both ends fresh. The setting must be one that no opening refuses.
    pub fn new(ends: &E, setting: &Setting, care: Care) -> System<E> {
        let slots = vec![UNWRITTEN; SLOTS * setting.limit];
        let (card, host) = (setting.card, setting.host);
        let opened = ends.open_card(card, host, setting.limit, &slots, setting.start);
        let (card_end, None) = opened else {
            panic!("the card's opening is refused");
        };
        let (host_end, None) = ends.open_host(host, card, setting.start) else {
            panic!("the host's opening is refused");
        };
        System {
            card: card_end,
            slots,
            host: host_end,
            memory: setting.memory.clone(),
            handed_out: Vec::new(),
            acknowledgements: Vec::new(),
            book: Book::new(&setting.memory, setting.start),
            kept: KeptMemory::new(&setting.memory),
            care,
            calls: 0,
            answered: Totals::default(),
            times_accepted: Vec::new(),
        }
    }

    /// Makes a call, and gives what it is answered unless the demand is broken by it.
    pub fn step(&mut self, call: &Call) -> Result<Outcome, Breach> {
        let outcome = self.make(call);
        let refused = outcome.card_refusal().is_some();
        let expected = self.book.enter(call, refused, outcome.handed_out());
        self.calls += 1;
        if let Outcome::Answered(answer) = outcome {
            self.arrived(&expected, answer)?;
        }
        self.check()?;
        Ok(outcome)
    }

    /// The host goes on with another state and another memory, as after a restart. What the
    /// demand claims of the list so far has to hold then as well.
    pub fn restart(&mut self, host: Host, memory: &[u8]) -> Result<(), Breach> {
        self.host.put(host);
        self.memory = memory.to_vec();
        self.calls += 1;
        self.check()
    }

    /// All that is claimed between two calls.
    fn check(&self) -> Result<(), Breach> {
        self.check_released()?;
        if self.kept.bytes() != self.memory {
            return Err(Breach::Memory);
        }
        if self.care == Care::EveryCall || self.calls.is_multiple_of(SELDOM) {
            self.finish()?;
        }
        Ok(())
    }

    /// The parts of the check that go through the whole book; due at the end of a list.
    pub fn finish(&self) -> Result<(), Breach> {
        if self.book.memory() != self.memory {
            return Err(Breach::Memory);
        }
        if self.book.totals() != self.answered {
            return Err(Breach::Sums);
        }
        if self.book.is_settled() {
            self.check_settled()?;
        }
        Ok(())
    }

    fn make(&mut self, call: &Call) -> Outcome {
        match call {
            Call::Open {
                count,
                address,
                value,
            } => {
                let opened = self.card.open_transaction(*count, *address, *value);
                opened.map_or_else(Outcome::Refused, Outcome::Opened)
            }
            Call::Add {
                transaction,
                address,
                data,
            } => {
                let added = self.card.add(*transaction, *address, data, &mut self.slots);
                added.map_or_else(Outcome::Refused, |()| Outcome::Added)
            }
            Call::Seal => {
                let sealed = self.card.seal(&self.slots);
                sealed.map_or_else(Outcome::Refused, Outcome::Sealed)
            }
            Call::Read(_) => {
                let read = self.card.read(&self.brought(call));
                read.map_or_else(Outcome::Refused, |()| Outcome::Read)
            }
            Call::Show(number) => {
                let card = self.card.card();
                let part = card.show(*number, &self.slots).into();
                self.hand_out(part, card.show_refusal(*number, &self.slots))
            }
            Call::Choose(lent) => {
                let card = self.card.card();
                let part = card.choose(lent, &self.slots).into();
                self.hand_out(part, card.choose_refusal(lent, &self.slots))
            }
            Call::Receive(_) => {
                let frame = self.brought(call);
                Outcome::Answered(self.host.receive(&frame, &mut self.memory))
            }
        }
    }

    fn hand_out(&mut self, part: Rc<[u8]>, refusal: Option<u8>) -> Outcome {
        assert_eq!(
            part.is_empty(),
            refusal.is_some(),
            "a part says if it is refused"
        );
        self.handed_out.push(part.clone());
        refusal.map_or(Outcome::HandedOut(part), Outcome::Refused)
    }

    /// The bytes that an arrival brings.
    pub fn brought(&self, call: &Call) -> Vec<u8> {
        match call {
            Call::Receive(copy) => self
                .handed_out
                .get(*copy)
                .map_or(vec![], |part| part.to_vec()),
            Call::Read(copy) => self
                .acknowledgements
                .get(*copy)
                .cloned()
                .unwrap_or_default(),
            _ => Vec::new(),
        }
    }

    /// An arrival at the host: its answer has to be the book's, number for number.
    fn arrived(&mut self, expected: &Expected, answer: Answer) -> Result<(), Breach> {
        let breach = || Breach::Answer(expected.clone(), answer);
        let (frame, due) = match *expected {
            Expected::NoEffect => {
                let nothing = matches!(answer, Answer::NoMessages | Answer::Refused { .. });
                return if nothing { Ok(()) } else { Err(breach()) };
            }
            Expected::Accepted {
                frame,
                messages,
                bytes,
                ref completed,
                run,
            } => {
                let due = Answer::Accepted {
                    number: self.book.frame_number(frame),
                    messages,
                    bytes,
                    completed: completed.len() as u64,
                    run,
                };
                (frame, due)
            }
            Expected::Again { frame, run } => {
                let number = self.book.frame_number(frame);
                (frame, Answer::Again { number, run })
            }
        };
        if answer != due {
            return Err(breach());
        }
        self.answered.add(answer);
        self.kept.arrive(&self.book, expected);
        let acknowledgement = self.host.acknowledgement(answer, 0);
        self.acknowledgements
            .push(acknowledgement.map_or(vec![], |bytes| bytes.to_vec()));
        self.times_accepted.resize(self.book.frames().len(), 0);
        self.times_accepted[frame] += u32::from(matches!(answer, Answer::Accepted { .. }));
        if self.times_accepted[frame] != 1 {
            return Err(Breach::AcceptedOnce(frame));
        }
        Ok(())
    }

    fn check_released(&self) -> Result<(), Breach> {
        let released = self.book.lowest_not_released();
        let unreleased = self.book.frames().len() - released;
        let accepted = self.book.lowest_not_accepted();
        if self.card.card().unreleased() != unreleased || released > accepted {
            return Err(Breach::Released);
        }
        Ok(())
    }

    /// The last sentence of the demand: each transaction counts once, with its messages
    /// and data bytes.
    fn check_settled(&self) -> Result<(), Breach> {
        let transactions = self.book.transactions();
        let messages = transactions
            .iter()
            .map(|entry| u64::from(entry.terms.messages()));
        let whole = Totals {
            messages: messages.sum(),
            bytes: self
                .book
                .added()
                .map(|message| message.data.len() as u64)
                .sum(),
            completed: transactions.len() as u64,
        };
        if self.answered != whole || self.memory != self.book.memory_whole() {
            return Err(Breach::Settled);
        }
        Ok(())
    }

    /// The book so far.
    pub fn book(&self) -> &Book {
        &self.book
    }

    /// The host's state.
    pub fn host(&self) -> &Host {
        self.host.host()
    }

    /// How often the host has accepted.
    pub fn acceptances(&self) -> u32 {
        self.times_accepted.iter().sum()
    }

    /// The host's memory.
    pub fn memory(&self) -> &[u8] {
        &self.memory
    }

    /// The card's slots.
    pub fn slots(&self) -> &[u8] {
        &self.slots
    }
}
