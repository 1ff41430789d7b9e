//! Which writes the transactions of a list are to make. Each reserves its bytes when
//! it is opened and gives them back when it is finished, so that the premises of demand
//! 3 hold, and bytes of finished ones are written again.

use super::profile::Profile;
use crate::book::Book;
use crate::ledger::READING;
use crate::list::{Call, Outcome};
use crate::rng::Rng;
use crate::wire::{FRAME_HEADER, MESSAGE_HEADER};
use std::collections::BTreeMap;
use std::ops::Range;

/// Bytes reserved for one message at most.
const LONGEST_PIECE: usize = 24;
/// Messages with data of one transaction at most.
const MOST_PIECES: usize = 12;
/// Readings of one block at most.
const MOST_READINGS: usize = 12;

/// What is left to do for a transaction.
#[derive(Clone, Debug, Default)]
struct Plan {
    /// Messages with data.
    pieces: Vec<Range<usize>>,
    /// Messages without.
    empty: u32,
    reserved: Vec<Range<usize>>,
    /// Where its block is, if it carries one.
    block: Option<Range<usize>>,
    /// The last message waits until there are this many frames.
    hold: usize,
}

impl Plan {
    fn left(&self) -> usize {
        self.pieces.len() + self.empty as usize
    }
}

/// A message that was asked for: its transaction and, if it has data, which piece.
type Asked = (usize, Option<usize>);

/// The plans of all transactions that are not finished.
#[derive(Clone, Debug)]
pub struct Plans {
    reserved: Vec<bool>,
    plans: BTreeMap<usize, Plan>,
    holding: bool,
    /// Transactions opened so far.
    opened: usize,
    /// What the latest call asked for, until its answer comes.
    opening: Option<Plan>,
    adding: Option<Asked>,
}

impl Plans {
    /// For a memory of so many bytes.
    pub fn new(memory: usize) -> Plans {
        Plans {
            reserved: vec![false; memory],
            plans: BTreeMap::new(),
            holding: true,
            opened: 0,
            opening: None,
            adding: None,
        }
    }

    /// No last message waits any longer.
    pub fn hold_nothing(&mut self) {
        self.holding = false;
    }

    /// Gives back what finished transactions had reserved.
    pub fn forget_finished(&mut self, book: &Book) {
        let reserved = &mut self.reserved;
        self.plans.retain(|transaction, plan| {
            let finished = book.transactions()[*transaction].is_finished();
            if finished {
                set(reserved, &plan.reserved, false);
            }
            !finished
        });
    }

    /// Whether some transaction wants a message.
    pub fn has_unfilled(&self, book: &Book) -> bool {
        self.unfilled(book).next().is_some()
    }

    fn unfilled(&self, book: &Book) -> impl Iterator<Item = usize> {
        let sealed = book.frames().len();
        let waits = move |plan: &Plan| self.holding && plan.left() == 1 && sealed < plan.hold;
        let plans = self.plans.iter();
        plans
            .filter(move |(_, plan)| plan.left() > 0 && !waits(plan))
            .map(|(transaction, _)| *transaction)
    }

    /// A transaction whose messages are all added.
    pub fn filled(&self, rng: &mut Rng, book: &Book) -> Option<usize> {
        let filled = (0..book.transactions().len()).rev().take(40);
        let filled: Vec<usize> = filled
            .filter(|transaction| {
                self.plans
                    .get(transaction)
                    .is_none_or(|plan| plan.left() == 0)
            })
            .collect();
        (!filled.is_empty()).then(|| rng.pick(&filled))
    }

    /// A transaction of count 0 that is not finished.
    pub fn bare(&self, book: &Book) -> Option<usize> {
        let mut unfinished = self.plans.keys();
        unfinished
            .find(|transaction| book.transactions()[**transaction].terms.count == 0)
            .copied()
    }

    /// Opens a transaction, if memory has room for its completion.
    pub fn opening(&mut self, rng: &mut Rng, profile: &Profile) -> Option<Call> {
        let mut plan = Plan::default();
        let completion = self.reserve(rng, 4, &mut plan)?;
        if profile.blocks {
            return self.opening_with_block(rng, profile, plan, completion);
        }
        let count = self.count(rng, profile);
        plan.hold = if self.opened == 0 { profile.hold } else { 0 };
        let longest = LONGEST_PIECE.min(profile.limit - FRAME_HEADER - MESSAGE_HEADER);
        for _ in 0..count.min(MOST_PIECES) {
            if longest == 0 || rng.chance(1, 4) {
                continue;
            }
            let length = rng.between(1, longest);
            if let Some(piece) = self.reserve(rng, length, &mut plan) {
                plan.pieces.push(piece);
            }
        }
        plan.empty = (count.max(1) - plan.pieces.len()) as u32;
        self.opening = Some(plan);
        Some(Call::Open {
            count: count as u16,
            address: completion.start as u32,
            value: rng.next_u32(),
        })
    }

    /// Opens a transaction with a block, if memory has room for it. Some blocks end in a cut
    /// reading, and some transactions have messages without data too.
    fn opening_with_block(
        &mut self,
        rng: &mut Rng,
        profile: &Profile,
        mut plan: Plan,
        completion: Range<usize>,
    ) -> Option<Call> {
        let longest = profile.limit - FRAME_HEADER - MESSAGE_HEADER;
        let cut = match rng.below(10) {
            0 => rng.between(1, READING - 1),
            _ => 0,
        };
        let size = match longest {
            0 => 0,
            _ => READING * rng.between(0, MOST_READINGS) + cut,
        };
        let Some(block) = self.reserve(rng, size, &mut plan) else {
            set(&mut self.reserved, &plan.reserved, false);
            return None;
        };
        let mut start = block.start;
        while start < block.end {
            let length = match rng.below(3) {
                0 => rng.between(1, longest),
                _ => longest,
            };
            let end = block.end.min(start + length);
            plan.pieces.push(start..end);
            start = end;
        }
        let count = plan.pieces.len() + rng.pick(&[0, 0, 0, 1, 2]);
        plan.empty = (count.max(1) - plan.pieces.len()) as u32;
        plan.block = Some(block);
        self.opening = Some(plan);
        Some(Call::Open {
            count: count as u16,
            address: completion.start as u32,
            value: rng.next_u32(),
        })
    }

    /// Where the block of a transaction is that carries one and is not finished.
    pub fn block_of(&self, transaction: usize) -> Option<Range<usize>> {
        self.plans.get(&transaction)?.block.clone()
    }

    /// How many data messages the next transaction has. Behind one that is held back
    /// come a few that are soon finished and then a window full of long ones.
    fn count(&self, rng: &mut Rng, profile: &Profile) -> usize {
        match (self.opened, rng.below(20)) {
            (0, _) if profile.hold > 0 => rng.between(2, 4),
            (1, _) if profile.hold > 0 => 0,
            (5..32, _) if profile.hold > 0 => rng.between(3_500, 6_000),
            (_, 0..4) => 0,
            (_, 4..15) => rng.between(1, 3),
            (_, 15..19) => rng.between(4, 12),
            _ => rng.between(40, 120),
        }
    }

    /// Adds a message of some transaction.
    pub fn adding(&mut self, rng: &mut Rng, book: &Book) -> Option<Call> {
        let unfilled: Vec<usize> = self.unfilled(book).collect();
        if unfilled.is_empty() {
            return None;
        }
        let transaction = rng.pick(&unfilled);
        let plan = &self.plans[&transaction];
        let pieces = plan.pieces.len();
        let with_data = pieces > 0 && (plan.empty == 0 || rng.chance(1, 2));
        let piece = with_data.then(|| rng.below(pieces));
        // A message without data may point anywhere in memory, its end included.
        let place = match piece {
            Some(index) => plan.pieces[index].clone(),
            None => {
                let address = rng.below(self.reserved.len() + 1);
                address..address
            }
        };
        self.adding = Some((transaction, piece));
        Some(Call::Add {
            transaction: book.transaction_number(transaction),
            address: place.start as u32,
            data: rng.bytes(place.len()),
        })
    }

    /// Reserves free bytes in a row.
    fn reserve(&mut self, rng: &mut Rng, length: usize, plan: &mut Plan) -> Option<Range<usize>> {
        let last = self.reserved.len().checked_sub(length)?;
        let place = (0..6)
            .map(|_| rng.between(0, last))
            .map(|start| start..start + length)
            .find(|place| !self.reserved[place.clone()].contains(&true))?;
        plan.reserved.push(place.clone());
        set(&mut self.reserved, &plan.reserved, true);
        Some(place)
    }

    /// Takes in what the call that was asked for is answered.
    pub fn note(&mut self, outcome: &Outcome, book: &Book) {
        let opening = self.opening.take();
        let adding = self.adding.take();
        match (opening, outcome) {
            (Some(plan), Outcome::Opened(_)) => {
                self.plans.insert(book.transactions().len() - 1, plan);
                self.opened += 1;
            }
            (Some(plan), _) => set(&mut self.reserved, &plan.reserved, false),
            (None, _) => {}
        }
        if let (Some((transaction, piece)), Outcome::Added) = (adding, outcome) {
            let plan = self
                .plans
                .get_mut(&transaction)
                .expect("it wants a message");
            match piece {
                Some(index) => drop(plan.pieces.swap_remove(index)),
                None => plan.empty -= 1,
            }
        }
    }
}

fn set(reserved: &mut [bool], places: &[Range<usize>], to: bool) {
    for place in places {
        reserved[place.clone()].fill(to);
    }
}
