//! What a list has met, so that a test can tell one with real content from one about
//! next to nothing.

use crate::book::{Book, HandOut};
use crate::host::{Answer, LONGEST_RUN};
use crate::list::{Call, Outcome};
use crate::premises;

/// How often each thing was met.
#[derive(Clone, Debug, Default, PartialEq, Eq)]
pub struct Tally {
    /// Calls.
    pub calls: u64,
    /// Hand-outs of frames, and acknowledgements, that never arrive by plan.
    pub lost_frames: u64,
    /// As above.
    pub lost_acknowledgements: u64,
    /// Acknowledgements that answers called for.
    pub acknowledgements: u64,
    /// Frames accepted, those before a lower one among them.
    pub accepted: u64,
    /// As above.
    pub out_of_order: u64,
    /// Copies answered again.
    pub repeats: u64,
    /// Answers whose run is of more than one number, and of as many as there can be.
    pub runs: u64,
    /// As above.
    pub longest_runs: u64,
    /// Frames and acknowledgements that came late by exactly as much as is allowed.
    pub latest_frames: u64,
    /// As above.
    pub latest_acknowledgements: u64,
    /// Copies of empty parts and of lent acknowledgements that reached the host.
    pub empty_copies: u64,
    /// As above.
    pub lent_copies: u64,
    /// Transactions of count 0, and messages without data.
    pub bare: u64,
    /// As above.
    pub empty_messages: u64,
    /// Frames and transactions that got the number 0 after the highest one.
    pub frame_wraps: u64,
    /// As above.
    pub transaction_wraps: u64,
    /// Transactions in the card's window when their last frame's number wrapped.
    pub came_round: u64,
    /// Calls after which all opened transactions were finished.
    pub settled: u64,
    /// Card calls refused, by number.
    pub refused: [u64; 28],
    /// The frame that holds each transaction's latest message.
    last_frames: Vec<usize>,
    lowest_unfinished: usize,
}

impl Tally {
    /// Counts a call before it is made.
    pub fn arrival(&mut self, call: &Call, book: &Book) {
        if let Call::Receive(copy) = call {
            match book.hand_outs().get(*copy) {
                Some(HandOut::Nothing) => self.empty_copies += 1,
                Some(HandOut::Lent) => self.lent_copies += 1,
                Some(HandOut::Frame(frame)) => {
                    let first = !book.frames()[*frame].accepted;
                    self.out_of_order += u64::from(first && *frame > book.lowest_not_accepted());
                }
                None => {}
            }
        }
        let latest = premises::lateness(book, call) == Some(premises::LATEST);
        match call {
            Call::Receive(_) => self.latest_frames += u64::from(latest),
            Call::Read(_) => self.latest_acknowledgements += u64::from(latest),
            _ => {}
        }
    }

    /// Counts a call with its answer; the book has it already.
    pub fn note(&mut self, call: &Call, outcome: &Outcome, book: &Book) {
        self.calls += 1;
        self.settled += u64::from(book.is_settled() && !book.transactions().is_empty());
        match outcome {
            Outcome::Refused(number) => self.refused[usize::from(*number)] += 1,
            Outcome::Answered(Answer::Accepted { run, .. }) => {
                self.accepted += 1;
                self.note_run(*run);
            }
            Outcome::Answered(Answer::Again { run, .. }) => {
                self.repeats += 1;
                self.note_run(*run);
            }
            Outcome::Opened(number) => {
                self.last_frames.push(0);
                let wraps = *number == 0 && book.transactions().len() > 1;
                self.transaction_wraps += u64::from(wraps);
                self.bare += u64::from(matches!(call, Call::Open { count: 0, .. }));
            }
            Outcome::Added => self.note_added(book),
            Outcome::Sealed(number) => {
                self.frame_wraps += u64::from(*number == 0 && book.frames().len() > 1);
            }
            Outcome::Read => self.note_finished(book),
            _ => {}
        }
    }

    fn note_run(&mut self, run: u8) {
        self.runs += u64::from(run > 1);
        self.longest_runs += u64::from(usize::from(run) == LONGEST_RUN);
    }

    fn note_added(&mut self, book: &Book) {
        if let Some(message) = book.building().last() {
            self.empty_messages += u64::from(message.data.is_empty());
            self.last_frames[message.transaction] = book.frames().len();
        }
    }

    fn note_finished(&mut self, book: &Book) {
        let left = self.lowest_unfinished..book.lowest_unfinished();
        let come_round =
            |transaction: &usize| book.frames().len() > self.last_frames[*transaction] + 65_536;
        self.came_round += left.filter(come_round).count() as u64;
        self.lowest_unfinished = book.lowest_unfinished();
    }

    /// Adds what another list has met.
    pub fn add(&mut self, other: &Tally) {
        self.calls += other.calls;
        self.lost_frames += other.lost_frames;
        self.lost_acknowledgements += other.lost_acknowledgements;
        self.acknowledgements += other.acknowledgements;
        self.accepted += other.accepted;
        self.out_of_order += other.out_of_order;
        self.repeats += other.repeats;
        self.runs += other.runs;
        self.longest_runs += other.longest_runs;
        self.latest_frames += other.latest_frames;
        self.latest_acknowledgements += other.latest_acknowledgements;
        self.empty_copies += other.empty_copies;
        self.lent_copies += other.lent_copies;
        self.bare += other.bare;
        self.empty_messages += other.empty_messages;
        self.frame_wraps += other.frame_wraps;
        self.transaction_wraps += other.transaction_wraps;
        self.came_round += other.came_round;
        self.settled += other.settled;
        for (sum, refused) in self.refused.iter_mut().zip(other.refused) {
            *sum += refused;
        }
    }
}
