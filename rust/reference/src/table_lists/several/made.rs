//! Random lists for a table: the simulator's lists of several cards, one call of one card
//! after one of another, while cards register, are moved and removed and frames of removed
//! ones still arrive.

use super::{Broken, Several, TableCall};
use crate::book::HandOut;
use crate::ends::{Ends, Start};
use crate::host::Answer;
use crate::list::{Call, Outcome};
use crate::rng::Rng;
use crate::simulator::{Profile, Simulator};
use crate::table::{MOST_CARDS, Registered, source_of};
use crate::table_lists::{Met, free_region, is_accepted, some_touch};
use crate::wire::{Message, write_frame};
use std::collections::BTreeMap;

/// A list that was made and what came of it.
#[derive(Clone, Debug)]
pub struct Made {
    /// Our ID.
    pub own: u16,
    /// The memory at the start.
    pub memory: Vec<u8>,
    /// Its calls.
    pub calls: Vec<TableCall>,
    /// What it has met.
    pub met: Met,
    /// What its last call broke.
    pub broken: Option<Broken>,
    /// All transactions of the cards that are left are finished.
    pub settled: bool,
}

/// What such lists have to meet.
pub const MET: [&str; 15] = [
    "a removal with frames left over",
    "a removal before all is finished",
    "sixteen cards",
    "cards that touch",
    "a source that registers again",
    "numbers near their end",
    "our own ID as a source",
    "a move with open transactions",
    "a move with frames ahead",
    "a move",
    "a move to memory's start",
    "an accepted frame",
    "one accepted with less than all memory",
    "a repeat",
    "a frame left over",
];

/// Makes a list of so many calls at a table of such ends; then, unless something is broken
/// before, goes on until all transactions of the cards that are left are finished.
pub fn make<E: Ends>(ends: E, seed: u64, calls: usize) -> Made {
    let mut rng = Rng::new(seed);
    let own = rng.next_u16().max(1);
    let most = rng.pick(&[1, 2, 3, 6, MOST_CARDS]);
    let length = rng.between(60, 60 + 60 * most);
    let memory = rng.bytes(length);
    let mut maker = Maker {
        several: Several::new(ends, own, &memory),
        rng,
        most,
        own,
        memory: memory.len(),
        simulators: BTreeMap::new(),
        left_over: BTreeMap::new(),
    };
    let mut made = Made {
        own,
        memory,
        calls: Vec::new(),
        met: Met::default(),
        broken: None,
        settled: false,
    };
    // A frame takes some five calls; no list takes this many more than planned.
    let limit = 5 * calls + 20_000;
    while made.broken.is_none() && made.calls.len() < limit {
        if made.calls.len() == calls {
            maker.simulators.values_mut().for_each(Simulator::drain);
        }
        let call = match made.calls.len() < calls {
            true => maker.any_call(),
            false => match maker.unsettled() {
                Some(source) => maker.call_of(source),
                None => break,
            },
        };
        made.calls.push(call);
        let call = &made.calls[made.calls.len() - 1];
        maker.note_before(call, &mut made.met);
        match maker.several.step(call) {
            Ok(outcome) => maker.note(call, outcome.as_ref(), &mut made.met),
            Err(broken) => made.broken = Some(broken),
        }
    }
    if made.broken.is_none() {
        made.broken = maker.several.finish().err();
        made.settled = maker.unsettled().is_none();
    }
    assert_ne!(made.broken, Some(Broken::Premise), "seed {seed}");
    made
}

struct Maker<E: Ends> {
    rng: Rng,
    several: Several<E>,
    /// Cards at a time at most.
    most: usize,
    own: u16,
    memory: usize,
    simulators: BTreeMap<u16, Simulator>,
    /// Frames of sources that were removed.
    left_over: BTreeMap<u16, Vec<Vec<u8>>>,
}

impl<E: Ends> Maker<E> {
    fn any_call(&mut self) -> TableCall {
        let here: Vec<u16> = self.simulators.keys().copied().collect();
        let (few, any) = (here.len() < self.most, !here.is_empty());
        match self.rng.below(100) {
            0 if any => TableCall::Remove(self.rng.pick(&here)),
            1..4 if any => self.moving(&here),
            4..7 => self.stray(&here),
            7..14 if few => self.registering().unwrap_or_else(|| self.stray(&here)),
            _ if any => {
                let source = self.rng.pick(&here);
                self.call_of(source)
            }
            _ => self.registering().unwrap_or_else(|| self.stray(&here)),
        }
    }

    fn cards(&self) -> Vec<Registered> {
        let sources = self.simulators.keys();
        let cards = sources.map(|&source| Registered {
            source,
            region: self.several.region(source),
        });
        let mut cards: Vec<Registered> = cards.collect();
        cards.sort_by_key(|card| card.region.first);
        cards
    }

    /// A source that is not registered, one that was removed rather often.
    fn free_source(&mut self) -> u16 {
        loop {
            let source = match self.rng.below(8) {
                0 => self.own,
                1 => self.rng.next_u16().max(1),
                _ => self.rng.between(1, 20) as u16,
            };
            if !self.simulators.contains_key(&source) {
                return source;
            }
        }
    }

    fn registering(&mut self) -> Option<TableCall> {
        let cards = self.cards();
        let lengths = [4, 5, 16, 40, 60, 150];
        let region = free_region(&mut self.rng, &cards, self.memory, &lengths)?;
        let source = self.free_source();
        let any = Profile::any(&mut self.rng);
        let profile = Profile {
            card: source,
            host: self.own,
            memory: region.length as usize,
            ..any
        };
        let (limit, start) = (profile.limit, profile.start);
        let simulator = Simulator::new(self.rng.next_u64(), profile);
        self.simulators.insert(source, simulator);
        Some(TableCall::Register {
            source,
            region,
            limit,
            start,
        })
    }

    /// Mostly where it is, and else to a region that is free.
    fn moving(&mut self, here: &[u16]) -> TableCall {
        let source = self.rng.pick(here);
        let region = self.several.region(source);
        let cards = self.cards();
        let free = free_region(&mut self.rng, &cards, self.memory, &[region.length]);
        let region = free.filter(|_| self.rng.chance(1, 2)).unwrap_or(region);
        TableCall::Move(source, region)
    }

    /// A frame that was left over, or one that nobody sent; its source is not registered.
    fn stray(&mut self, here: &[u16]) -> TableCall {
        let gone = self.left_over.iter();
        let gone = gone.filter(|(source, frames)| !here.contains(source) && !frames.is_empty());
        let gone: Vec<u16> = gone.map(|(source, _)| *source).collect();
        if gone.is_empty() {
            let source = self.free_source();
            let bare = Message {
                transaction: 0,
                completion_address: 0,
                completion_value: 7,
                count: 0,
                data_address: 0,
                data: &[],
            };
            let frame = write_frame(self.own, source, 0, &[bare]);
            return TableCall::Stray(frame);
        }
        let frames = &self.left_over[&self.rng.pick(&gone)];
        TableCall::Stray(frames[self.rng.below(frames.len())].clone())
    }

    fn call_of(&mut self, source: u16) -> TableCall {
        let system = &self.several.cards[&source];
        let simulator = self.simulators.get_mut(&source);
        let simulator = simulator.expect("every card has one");
        let call = simulator.next_call(system.book());
        let end = self.several.region(source).bytes().end as usize;
        let lent = match self.rng.below(4) {
            0 => end,
            1 => self.rng.between(end, self.memory),
            _ => self.memory,
        };
        TableCall::Of { source, call, lent }
    }

    fn unsettled(&self) -> Option<u16> {
        let mut cards = self.several.cards.iter();
        let unsettled = cards.find(|(_, system)| !system.book().is_settled());
        unsettled.map(|(source, _)| *source)
    }

    /// What is known only while the card is there.
    fn note_before(&mut self, call: &TableCall, met: &mut Met) {
        let TableCall::Remove(source) = call else {
            return;
        };
        let Some(system) = self.several.cards.get(source) else {
            return;
        };
        let hand_outs = system.book().hand_outs().iter().enumerate();
        let sent = hand_outs.filter(|(_, hand_out)| matches!(hand_out, HandOut::Frame(_)));
        let frames = sent.map(|(copy, _)| system.brought(&Call::Receive(copy)));
        let frames: Vec<Vec<u8>> = frames.collect();
        met.count("a removal with frames left over", !frames.is_empty());
        met.count(
            "a removal before all is finished",
            !system.book().is_settled(),
        );
        self.left_over.insert(*source, frames);
        self.simulators.remove(source);
    }

    fn note(&mut self, call: &TableCall, outcome: Option<&Outcome>, met: &mut Met) {
        match call {
            TableCall::Register { source, start, .. } => {
                let cards = self.cards();
                met.count("sixteen cards", cards.len() == MOST_CARDS);
                met.count("cards that touch", some_touch(&cards));
                let again = self.left_over.contains_key(source);
                met.count("a source that registers again", again);
                let near_the_end = *start != Start::default();
                met.count("numbers near their end", near_the_end);
                met.count("our own ID as a source", *source == self.own);
            }
            TableCall::Move(source, region) => {
                let system = &self.several.cards[source];
                let pair = system.host();
                let open = !pair.open_transactions().is_empty();
                met.count("a move with open transactions", open);
                met.count("a move with frames ahead", pair.marks() > 0);
                met.count("a move", true);
                met.count("a move to memory's start", region.first == 0);
            }
            TableCall::Of { source, call, lent } => {
                let outcome = outcome.expect("a card's call is answered");
                let (system, simulator) = (&self.several.cards[source], &mut self.simulators);
                let simulator = simulator.get_mut(source).expect("every card has one");
                simulator.note(call, outcome, system.book());
                if let Outcome::Answered(answer) = outcome {
                    let accepted = is_accepted(*answer);
                    met.count("an accepted frame", accepted);
                    let short = *lent < self.memory && accepted;
                    met.count("one accepted with less than all memory", short);
                    let again = matches!(answer, Answer::Again { .. });
                    met.count("a repeat", again);
                }
            }
            TableCall::Stray(frame) => {
                let source = source_of(frame);
                let old = source.is_some_and(|source| self.left_over.contains_key(&source));
                met.count("a frame left over", old);
            }
            TableCall::Remove(_) => {}
        }
    }
}
