//! Random lists under the premises of demand 3: a card that is kept busy, a network
//! that loses, repeats, reorders and delays, and calls that are refused. The next call
//! depends on the seed and the book only, so any ends can be driven.

use crate::book::{Book, HandOut};
use crate::list::{Call, Outcome};
use crate::premises;
use crate::rng::Rng;
use crate::wire::{FRAME_HEADER, MESSAGE_HEADER};
use plans::Plans;
use std::collections::VecDeque;
use std::ops::Range;

mod come_round;
mod plans;
mod profile;
mod run;
mod tally;

pub use come_round::come_round;
pub use profile::Profile;
pub use run::{Failure, Run, check_list, simulate};
pub use tally::Tally;

/// How late a copy comes that is brought late on purpose.
const LATENESS: [usize; 12] = [
    1, 2, 3, 63, 64, 65, 66, 1_000, 16_384, 32_766, 32_767, 32_768,
];

/// What is done next where nothing special is.
#[derive(Clone, Copy, Debug)]
enum Action {
    Open,
    Add,
    Seal,
    Show,
    Choose,
    Receive,
    Read,
}

/// A source of calls.
#[derive(Clone, Debug)]
pub struct Simulator {
    rng: Rng,
    profile: Profile,
    plans: Plans,
    /// Hand-outs and acknowledgements on their way.
    frames_on_way: VecDeque<usize>,
    acknowledgements_on_way: VecDeque<usize>,
    /// Frames that were not shown yet.
    unsent: VecDeque<usize>,
    /// A hand-out and an acknowledgement of each frame, for being late.
    copies: Vec<Option<usize>>,
    answers: Vec<Option<usize>>,
    /// Nothing new is begun, and nothing is lost, so that all comes to an end.
    draining: bool,
    tally: Tally,
}

impl Simulator {
    /// The source of a list for ends in the profile's setting.
    pub fn new(seed: u64, profile: Profile) -> Simulator {
        Simulator {
            rng: Rng::new(seed),
            plans: Plans::new(profile.memory),
            profile,
            frames_on_way: VecDeque::new(),
            acknowledgements_on_way: VecDeque::new(),
            unsent: VecDeque::new(),
            copies: Vec::new(),
            answers: Vec::new(),
            draining: false,
            tally: Tally::default(),
        }
    }

    /// From here on opens nothing and loses nothing.
    pub fn drain(&mut self) {
        self.draining = true;
        self.plans.hold_nothing();
    }

    /// What the list has met so far.
    pub fn tally(&self) -> &Tally {
        &self.tally
    }

    /// Where the block of a transaction is that carries one and is not finished.
    pub fn block_of(&self, transaction: usize) -> Option<Range<usize>> {
        self.plans.block_of(transaction)
    }

    /// The next call of the list, given the book of those so far.
    pub fn next_call(&mut self, book: &Book) -> Call {
        self.plans.forget_finished(book);
        let call = self.any_call(book);
        self.tally.arrival(&call, book);
        call
    }

    fn any_call(&mut self, book: &Book) -> Call {
        if !self.draining && self.rng.chance(self.profile.refused, 100) {
            return self.hopeless(book);
        }
        if !self.draining
            && self.rng.chance(self.profile.late, 100)
            && let Some(call) = self.late(book)
        {
            return call;
        }
        let unreleased = book.frames().len() - book.lowest_not_released();
        let weights = [
            (Action::Open, self.weight_of_opening(book)),
            (Action::Add, self.weight_of_adding(book)),
            (Action::Seal, 3 * book.building().len()),
            (Action::Show, 5 * self.unsent.len().min(2)),
            (Action::Choose, 1 + unreleased.min(1)),
            (Action::Receive, self.frames_on_way.len().min(8)),
            (Action::Read, self.acknowledgements_on_way.len().min(8)),
        ];
        match weighted(&mut self.rng, &weights) {
            Action::Open => self.opening(book),
            Action::Add => self.adding(book),
            Action::Seal => Call::Seal,
            Action::Show => self.showing(book),
            Action::Choose => self.choosing(),
            Action::Receive => self.receiving(book),
            Action::Read => self.reading(book),
        }
    }

    fn weight_of_opening(&mut self, book: &Book) -> usize {
        if self.draining {
            return 0;
        }
        match book.transactions().len() - book.lowest_unfinished() {
            0..4 => 6,
            4..32 => 2,
            // Refusal 20.
            _ => usize::from(self.rng.chance(1, 8)),
        }
    }

    fn weight_of_adding(&self, book: &Book) -> usize {
        match self.plans.has_unfilled(book) {
            false => 0,
            true if book.building().is_empty() => 6,
            true => 2,
        }
    }

    fn opening(&mut self, book: &Book) -> Call {
        match self.plans.opening(&mut self.rng, &self.profile) {
            Some(call) => call,
            None => self.choosing_or_hopeless(book),
        }
    }

    fn adding(&mut self, book: &Book) -> Call {
        match self.plans.adding(&mut self.rng, book) {
            Some(call) => call,
            None => self.choosing_or_hopeless(book),
        }
    }

    fn choosing_or_hopeless(&mut self, book: &Book) -> Call {
        if self.draining || self.rng.chance(1, 2) {
            self.choosing()
        } else {
            self.hopeless(book)
        }
    }

    fn showing(&mut self, book: &Book) -> Call {
        match self.unsent.pop_front() {
            Some(frame) => Call::Show(book.frame_number(frame)),
            None => self.choosing(),
        }
    }

    fn choosing(&mut self) -> Call {
        let length = match self.rng.below(20) {
            0 | 1 if !self.draining => FRAME_HEADER,
            2 => FRAME_HEADER - 1,
            3 => FRAME_HEADER + 1,
            _ => 0,
        };
        let mut lent = self.rng.bytes(length);
        // Often one with the right IDs, so that it gets past refusal 3.
        if length == FRAME_HEADER && self.rng.chance(2, 3) {
            lent[0..2].copy_from_slice(&self.profile.host.to_le_bytes());
            lent[2..4].copy_from_slice(&self.profile.card.to_le_bytes());
            lent[9] = self.rng.pick(&[0, 1, 1, 3]);
        }
        Call::Choose(lent)
    }

    fn receiving(&mut self, book: &Book) -> Call {
        let copy = take(&mut self.rng, &mut self.frames_on_way, self.profile.reorder);
        self.unless_too_late(book, copy.map(Call::Receive))
    }

    fn reading(&mut self, book: &Book) -> Call {
        let reorder = self.profile.reorder;
        let copy = take(&mut self.rng, &mut self.acknowledgements_on_way, reorder);
        self.unless_too_late(book, copy.map(Call::Read))
    }

    /// A copy that has been on its way for too long is lost.
    fn unless_too_late(&mut self, book: &Book, call: Option<Call>) -> Call {
        match call {
            Some(call) if premises::in_time(book, &call) => call,
            _ => self.choosing(),
        }
    }

    /// A copy of an old frame or of an old acknowledgement.
    fn late(&mut self, book: &Book) -> Option<Call> {
        let frames = self.rng.chance(1, 2);
        let lowest = if frames {
            book.lowest_not_accepted()
        } else {
            book.lowest_not_released()
        };
        let late = match self.rng.below(3) {
            0 => self.rng.between(1, premises::LATEST as usize),
            // The very latest that is allowed.
            1 => premises::LATEST as usize,
            _ => self.rng.pick(&LATENESS),
        };
        let late = if late <= lowest || self.rng.chance(1, 2) {
            late
        } else {
            self.rng.between(1, lowest.max(1))
        };
        let frame = lowest.checked_sub(late)?;
        let call = if frames {
            Call::Receive((*self.copies.get(frame)?)?)
        } else {
            Call::Read((*self.answers.get(frame)?)?)
        };
        premises::in_time(book, &call).then_some(call)
    }

    /// A call that a card or host that keeps the rules refuses, or that does nothing.
    fn hopeless(&mut self, book: &Book) -> Call {
        let opened = book.transactions().len();
        match self.rng.below(9) {
            0 => Call::Seal,
            // A transaction never opened.
            1 => {
                let number = book.transaction_number(opened + self.rng.below(40));
                self.add_to(number, 1)
            }
            // One that has had all its messages.
            2 => match self.plans.filled(&mut self.rng, book) {
                Some(transaction) => self.add_to(book.transaction_number(transaction), 0),
                None => Call::Seal,
            },
            // Data for a bare message, and data that fits in no frame.
            3 => match self.plans.bare(book) {
                Some(transaction) => self.add_to(book.transaction_number(transaction), 1),
                None => Call::Show(self.rng.next_u16()),
            },
            4 => {
                let least = self.profile.limit - FRAME_HEADER - MESSAGE_HEADER + 1;
                let length = least + self.rng.pick(&[0, 0, 1, 1_000, 70_000]);
                let number = book.transaction_number(self.rng.below(opened.max(1)));
                self.add_to(number, length)
            }
            5 => {
                let lowest = book.lowest_not_released();
                let past = self.rng.chance(1, 2);
                let frame = if past {
                    lowest.saturating_sub(1)
                } else {
                    book.frames().len()
                };
                Call::Show(book.frame_number(frame))
            }
            6 => Call::Receive(book.hand_outs().len() + self.rng.below(3)),
            7 => Call::Read(book.acknowledgements().len() + self.rng.below(3)),
            // Any number; it may be a held frame's.
            _ => {
                let near = self.rng.below(130);
                let frame = (book.lowest_not_released() + near).saturating_sub(64);
                Call::Show(book.frame_number(frame))
            }
        }
    }

    fn add_to(&mut self, transaction: u32, length: usize) -> Call {
        Call::Add {
            transaction,
            address: 0,
            data: self.rng.bytes(length),
        }
    }

    /// Takes in what the call was answered; the book has it already.
    pub fn note(&mut self, call: &Call, outcome: &Outcome, book: &Book) {
        self.tally.note(call, outcome, book);
        self.plans.note(outcome, book);
        match call {
            Call::Seal if matches!(outcome, Outcome::Sealed(_)) => {
                self.copies.push(None);
                self.answers.push(None);
                self.unsent.push_back(book.frames().len() - 1);
            }
            Call::Show(_) | Call::Choose(_) => self.note_hand_out(book),
            Call::Receive(_) => self.note_answer(book),
            _ => {}
        }
    }

    fn note_hand_out(&mut self, book: &Book) {
        let copy = book.hand_outs().len() - 1;
        let sent = match book.hand_outs()[copy] {
            HandOut::Nothing => usize::from(self.rng.chance(1, 5)),
            HandOut::Lent => self.rng.below(3),
            HandOut::Frame(frame) => {
                self.copies[frame] = Some(copy);
                let sent = self.copies_sent();
                self.tally.lost_frames += u64::from(sent == 0);
                sent
            }
        };
        self.frames_on_way.extend(std::iter::repeat_n(copy, sent));
    }

    fn note_answer(&mut self, book: &Book) {
        let known = self.tally.acknowledgements;
        if book.acknowledgements().len() as u64 == known {
            return;
        }
        self.tally.acknowledgements += 1;
        let copy = book.acknowledgements().len() - 1;
        self.answers[book.acknowledgements()[copy].first] = Some(copy);
        let sent = self.copies_sent();
        self.tally.lost_acknowledgements += u64::from(sent == 0);
        self.acknowledgements_on_way
            .extend(std::iter::repeat_n(copy, sent));
    }

    fn copies_sent(&mut self) -> usize {
        if !self.draining && self.rng.chance(self.profile.lost, 100) {
            0
        } else if self.rng.chance(self.profile.repeated, 100) {
            self.rng.between(2, 3)
        } else {
            1
        }
    }
}

/// One of the items, each as often as its weight says; their sum must not be 0.
fn weighted<T: Copy>(rng: &mut Rng, items: &[(T, usize)]) -> T {
    let total = items.iter().map(|(_, weight)| weight).sum();
    let mut place = rng.below(total);
    let chosen = items.iter().find(|(_, weight)| {
        let here = place < *weight;
        place = place.saturating_sub(*weight);
        here
    });
    chosen.expect("the place is below the sum").0
}

/// The one that comes next: mostly the first, `reorder` times in 100 any.
fn take(rng: &mut Rng, on_way: &mut VecDeque<usize>, reorder: usize) -> Option<usize> {
    if !on_way.is_empty() && rng.chance(reorder, 100) {
        on_way.swap_remove_front(rng.below(on_way.len()))
    } else {
        on_way.pop_front()
    }
}
