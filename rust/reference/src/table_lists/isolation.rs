//! Two lists on two tables. Both have the same registerings and removals and the same
//! frames of one card, with the same lengths of memory lent. The frames of the other cards
//! differ, with the lengths lent with these. What the one card is answered and what stands
//! in its region may not tell the two apart.

use super::{Met, free_region, is_accepted, some_touch};
use crate::aimed;
use crate::ends::{Ends, Sound, TableEnd};
use crate::host::{Answer, Host};
use crate::refusal;
use crate::rng::Rng;
use crate::table::{Region, Registered, source_of};
use crate::wire::FRAME_HEADER;
use std::collections::BTreeMap;

/// A call on a table.
#[derive(Clone, Debug)]
pub enum Call {
    /// A card registers.
    Register {
        /// Its ID.
        source: u16,
        /// Its region.
        region: Region,
        /// The length of memory that is told.
        memory: u64,
    },
    /// A pair is adopted.
    Adopt {
        /// The pair.
        pair: Box<Host>,
        /// As above.
        region: Region,
        /// As above.
        memory: u64,
    },
    /// A card is removed.
    Remove(u16),
    /// A frame arrives.
    Deliver {
        /// The frame.
        frame: Vec<u8>,
        /// How much of the memory is lent.
        lent: usize,
    },
}

/// A call of one list or of both.
#[derive(Clone, Debug)]
pub enum Step {
    /// Both tables get it: a registering, a removal or a frame of the card.
    Both(Call),
    /// One of the two gets it: a frame of another card, or of none.
    One(usize, Call),
}

/// Two lists.
#[derive(Clone, Debug)]
pub struct Twins {
    /// The tables' ID.
    pub own: u16,
    /// The card that is watched.
    pub watched: u16,
    /// What the memories start with. They are as long as each other.
    pub memories: [Vec<u8>; 2],
    /// The calls in order of time.
    pub steps: Vec<Step>,
    /// What they have met.
    pub met: Met,
}

/// What such lists have to meet.
pub const MET: [&str; 9] = [
    "the card's frame accepted",
    "the card's frame refused with 31",
    "the card's frame again",
    "another card's frame accepted beside it",
    "the same in a region that may touch",
    "a removal of the card",
    "a removal of another beside it",
    "an adoption of the card's pair",
    "an overlap",
];

/// What tells the two lists apart, or changes what no list may change.
#[derive(Clone, Copy, Debug, PartialEq, Eq)]
pub enum Leak {
    /// A call of both is answered differently.
    Answer,
    /// The card's pairs differ.
    Pair,
    /// The card's regions have different bytes while it is registered.
    Region,
    /// A byte outside all regions has changed.
    Outside,
}

/// What a call is answered.
#[derive(Clone, Debug, PartialEq, Eq)]
enum Outcome {
    Done(Result<(), u8>),
    Answered(Answer, Option<[u8; FRAME_HEADER]>),
}

/// One of the two tables.
struct Run<T> {
    table: T,
    memory: Vec<u8>,
    /// The cards that are registered, as the answers tell.
    regions: BTreeMap<u16, Region>,
}

impl<T: TableEnd> Run<T> {
    fn new<E: Ends<Table = T>>(ends: &E, own: u16, memory: &[u8]) -> Run<T> {
        let (table, None) = ends.open_table(own) else {
            panic!("the table's opening is refused");
        };
        Run {
            table,
            memory: memory.to_vec(),
            regions: BTreeMap::new(),
        }
    }

    fn make(&mut self, call: &Call) -> Result<Outcome, Leak> {
        match call {
            Call::Register {
                source,
                region,
                memory,
            } => {
                let done = self.table.register(*source, *region, *memory);
                Ok(self.entered(*source, *region, done))
            }
            Call::Adopt {
                pair,
                region,
                memory,
            } => {
                let done = self.table.adopt(pair, *region, *memory);
                Ok(self.entered(pair.ids().1, *region, done))
            }
            Call::Remove(source) => {
                let done = self.table.remove(*source);
                if done.is_ok() {
                    self.regions.remove(source);
                }
                Ok(Outcome::Done(done))
            }
            Call::Deliver { frame, lent } => self.deliver(frame, *lent),
        }
    }

    fn entered(&mut self, source: u16, region: Region, done: Result<(), u8>) -> Outcome {
        if done.is_ok() {
            self.regions.insert(source, region);
        }
        Outcome::Done(done)
    }

    fn deliver(&mut self, frame: &[u8], lent: usize) -> Result<Outcome, Leak> {
        let mut before = self.memory.clone();
        let answer = self.table.receive(frame, &mut self.memory[..lent]);
        for region in self.regions.values() {
            let now = region.of(&mut self.memory).expect("it is in memory");
            let then = region.of(&mut before).expect("it is in memory");
            then.copy_from_slice(now);
        }
        if before != self.memory {
            return Err(Leak::Outside);
        }
        let source = source_of(frame).unwrap_or(0);
        let acknowledgement = self.table.acknowledgement(answer, source, 0);
        Ok(Outcome::Answered(answer, acknowledgement))
    }

    fn bytes_of(&mut self, source: u16) -> Option<&mut [u8]> {
        let region = self.regions.get(&source)?;
        region.of(&mut self.memory)
    }
}

/// Both tables while the lists go on.
struct Runs<T> {
    watched: u16,
    runs: [Run<T>; 2],
}

impl<T: TableEnd> Runs<T> {
    fn new<E: Ends<Table = T>>(ends: &E, own: u16, watched: u16, memories: &[Vec<u8>; 2]) -> Self {
        let runs = [0, 1].map(|index: usize| Run::new(ends, own, &memories[index]));
        Runs { watched, runs }
    }

    /// Makes a step, and gives what its first table answered.
    fn step(&mut self, step: &Step) -> Result<Outcome, Leak> {
        let outcome = match step {
            Step::One(index, call) => self.runs[*index].make(call)?,
            Step::Both(call) => {
                let registered = self.runs[0].regions.contains_key(&self.watched);
                let [one, two] = &mut self.runs;
                let outcome = one.make(call)?;
                if two.make(call)? != outcome {
                    return Err(Leak::Answer);
                }
                // From its registering on the card's bytes are the same.
                if !registered && let Some(bytes) = one.bytes_of(self.watched) {
                    let bytes = bytes.to_vec();
                    let other = two.bytes_of(self.watched).ok_or(Leak::Answer)?;
                    other.copy_from_slice(&bytes);
                }
                outcome
            }
        };
        self.check()?;
        Ok(outcome)
    }

    fn check(&mut self) -> Result<(), Leak> {
        let watched = self.watched;
        let [one, two] = &mut self.runs;
        if one.table.take(watched) != two.table.take(watched) {
            return Err(Leak::Pair);
        }
        if one.bytes_of(watched) != two.bytes_of(watched) {
            return Err(Leak::Region);
        }
        Ok(())
    }
}

/// Runs both lists on such tables, up to the step that tells them apart.
pub fn isolated<E: Ends>(ends: &E, twins: &Twins) -> Result<(), (usize, Leak)> {
    let mut runs = Runs::new(ends, twins.own, twins.watched, &twins.memories);
    for (index, step) in twins.steps.iter().enumerate() {
        runs.step(step).map_err(|leak| (index, leak))?;
    }
    Ok(())
}

/// Makes two lists of so many calls together, and what they are answered by the reference.
pub fn make(seed: u64, steps: usize) -> Twins {
    let mut rng = Rng::new(seed);
    let own = rng.pick(&[1, 2, 9]);
    let length = rng.pick(&[40, 80, 150]);
    let memories = [rng.bytes(length), rng.bytes(length)];
    let watched = rng.between(2, 6) as u16;
    let mut maker = Maker {
        own,
        runs: Runs::new(&Sound, own, watched, &memories),
        met: Met::default(),
        rng,
    };
    let made = (0..steps).map(|_| {
        let step = maker.any_step();
        let outcome = maker.runs.step(&step);
        let outcome = outcome.expect("the reference keeps its cards apart");
        maker.note(&step, &outcome);
        step
    });
    Twins {
        own,
        watched,
        memories,
        steps: made.collect(),
        met: maker.met,
    }
}

struct Maker {
    rng: Rng,
    own: u16,
    runs: Runs<crate::table::Table>,
    met: Met,
}

impl Maker {
    fn any_step(&mut self) -> Step {
        match self.rng.below(20) {
            0..3 => Step::Both(self.register()),
            3 => Step::Both(self.remove()),
            4 => Step::Both(self.adopt()),
            5..12 => Step::Both(self.watched_frame()),
            _ => {
                let run = self.rng.below(2);
                Step::One(run, self.other_frame(run))
            }
        }
    }

    fn memory(&self) -> usize {
        self.runs.runs[0].memory.len()
    }

    fn cards(&self) -> Vec<Registered> {
        self.runs.runs[0].table.cards()
    }

    fn any_source(&mut self) -> u16 {
        match self.rng.below(4) {
            0 => self.runs.watched,
            _ => self.rng.between(1, 8) as u16,
        }
    }

    /// Mostly free, and else one that overlaps a card's at one of its ends.
    fn any_region(&mut self) -> (Region, u64) {
        let (cards, memory) = (self.cards(), self.memory());
        let told = match self.rng.below(10) {
            0 => self.rng.below(memory + 1) as u64,
            _ => memory as u64,
        };
        let lengths = [1, 4, 5, 8, 12, 20];
        if !cards.is_empty() && self.rng.chance(1, 4) {
            let Region { first, length } = self.rng.pick(&cards).region;
            let region = match self.rng.below(3) {
                0 => Region {
                    first: first + length - 1,
                    length: self.rng.pick(&lengths),
                },
                1 => Region {
                    first: first.saturating_sub(5),
                    length: 6,
                },
                _ => Region { first, length },
            };
            return (region, told);
        }
        let free = free_region(&mut self.rng, &cards, memory, &lengths);
        let none = Region {
            first: 0,
            length: 0,
        };
        (free.unwrap_or(none), told)
    }

    fn register(&mut self) -> Call {
        let source = self.any_source();
        let (region, memory) = self.any_region();
        Call::Register {
            source,
            region,
            memory,
        }
    }

    fn adopt(&mut self) -> Call {
        let next = self.rng.pick(&[0, 3, 65_530]);
        let lowest = self.rng.pick(&[0, 7, u32::MAX - 2]);
        let pair = Host::starting_at(self.own, self.any_source(), next, lowest);
        let (region, memory) = self.any_region();
        Call::Adopt {
            pair: Box::new(pair),
            region,
            memory,
        }
    }

    fn remove(&mut self) -> Call {
        let cards = self.cards();
        match self.rng.below(3) {
            0 => Call::Remove(self.any_source()),
            _ if cards.is_empty() => Call::Remove(0),
            _ => Call::Remove(self.rng.pick(&cards).source),
        }
    }

    /// A frame with the watched card's ID, whether it is registered or not.
    fn watched_frame(&mut self) -> Call {
        let watched = self.runs.watched;
        let frame = loop {
            let frame = self.frame_of(watched, 0);
            if source_of(&frame) == Some(watched) {
                break frame;
            }
        };
        let lent = self.lent(Some(watched));
        Call::Deliver { frame, lent }
    }

    /// A frame of another card, or one too short to be of any.
    fn other_frame(&mut self, run: usize) -> Call {
        let others: Vec<u16> = self.cards().iter().map(|card| card.source).collect();
        let source = match others[..] {
            [_, ..] if self.rng.chance(7, 8) => self.rng.pick(&others),
            _ => self.rng.next_u16(),
        };
        let mut frame = match source == self.runs.watched {
            true => Vec::new(),
            false => self.frame_of(source, run),
        };
        if source_of(&frame) == Some(self.runs.watched) {
            frame.truncate(3);
        }
        let lent = self.lent(Some(source));
        Call::Deliver { frame, lent }
    }

    /// A frame that is aimed at the state of one of the tables.
    fn frame_of(&mut self, source: u16, run: usize) -> Vec<u8> {
        let run = &self.runs.runs[run];
        let region = run.regions.get(&source);
        let length = region.map_or(20, |region| region.length);
        let fresh = Host::starting_at(self.own, source, 0, 0);
        let pair = run.table.take(source).unwrap_or(fresh);
        let frame = aimed::frame(&mut self.rng, &pair, length);
        match self.rng.below(10) {
            0 => aimed::damaged(&mut self.rng, &frame),
            _ => frame,
        }
    }

    fn lent(&mut self, source: Option<u16>) -> usize {
        let memory = self.memory();
        let region = source.and_then(|source| self.runs.runs[0].regions.get(&source));
        let end = region.map_or(0, |region| region.bytes().end as usize);
        match self.rng.below(12) {
            0 => end,
            1 => end.saturating_sub(1),
            2 => self.rng.below(memory + 1),
            _ => memory,
        }
    }

    fn note(&mut self, step: &Step, outcome: &Outcome) {
        let watched = self.runs.watched;
        let there = self.runs.runs[0].regions.contains_key(&watched);
        let touch = some_touch(&self.cards());
        let met = &mut self.met;
        match (step, outcome) {
            (Step::Both(Call::Deliver { .. }), Outcome::Answered(answer, _)) => {
                met.count("the card's frame accepted", is_accepted(*answer));
                let short = *answer
                    == Answer::Refused {
                        number: refusal::REGION_OUTSIDE,
                        place: 0,
                    };
                met.count("the card's frame refused with 31", short);
                let again = matches!(answer, Answer::Again { .. });
                met.count("the card's frame again", again);
            }
            (Step::One(_, _), Outcome::Answered(answer, _)) => {
                let beside = is_accepted(*answer) && there;
                met.count("another card's frame accepted beside it", beside);
                met.count("the same in a region that may touch", beside && touch);
            }
            (Step::Both(Call::Remove(source)), Outcome::Done(Ok(()))) => {
                met.count("a removal of the card", *source == watched);
                met.count(
                    "a removal of another beside it",
                    *source != watched && there,
                );
            }
            (Step::Both(Call::Adopt { pair, .. }), Outcome::Done(done)) => {
                let of_it = pair.ids().1 == watched;
                met.count("an adoption of the card's pair", of_it && done.is_ok());
            }
            (Step::Both(_), Outcome::Done(Err(number))) => {
                met.count("an overlap", *number == refusal::REGION_OVERLAPS);
            }
            _ => {}
        }
    }
}
