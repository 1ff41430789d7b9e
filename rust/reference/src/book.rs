//! The plain book of demand 3. It is fed the starting memory, the calls, which card
//! calls were refused and what was handed out (D6); it sees neither end's state (D7).
//! Frames and transactions are counted from 0, without wrapping (D14).

use crate::ends::Start;
use crate::host::{LONGEST_RUN, Terms};
use crate::list::Call;
use crate::replay::Totals;

mod entries;

pub use entries::{Acknowledgement, Expected, Frame, HandOut, Message, Transaction};

/// The book.
#[derive(Clone, Debug, PartialEq, Eq)]
pub struct Book {
    starting_memory: Vec<u8>,
    start: Start,
    transactions: Vec<Transaction>,
    frames: Vec<Frame>,
    building: Vec<Message>,
    hand_outs: Vec<HandOut>,
    /// What each acknowledgement called for is of.
    acknowledgements: Vec<Acknowledgement>,
    lowest_not_accepted: usize,
    lowest_not_released: usize,
    lowest_unfinished: usize,
    finished: usize,
}

impl Book {
    /// The book before the first call, of ends whose numbers start as told.
    pub fn new(starting_memory: &[u8], start: Start) -> Book {
        Book {
            starting_memory: starting_memory.to_vec(),
            start,
            transactions: Vec::new(),
            frames: Vec::new(),
            building: Vec::new(),
            hand_outs: Vec::new(),
            acknowledgements: Vec::new(),
            lowest_not_accepted: 0,
            lowest_not_released: 0,
            lowest_unfinished: 0,
            finished: 0,
        }
    }

    /// Enters a call, and tells what an arrival at the host is owed. `refused` is of a
    /// card's call, `handed_out` of a showing or choice.
    pub fn enter(&mut self, call: &Call, refused: bool, handed_out: &[u8]) -> Expected {
        match call {
            Call::Show(_) | Call::Choose(_) => {
                let hand_out = self.hand_out(call, refused, handed_out);
                self.hand_outs.push(hand_out);
            }
            Call::Receive(copy) => return self.arrive(*copy),
            // A refused call does nothing (D12).
            _ if refused => {}
            Call::Open {
                count,
                address,
                value,
            } => self.open(Terms {
                count: *count,
                completion_address: *address,
                completion_value: *value,
            }),
            Call::Add {
                transaction,
                address,
                data,
            } => self.add(*transaction, *address, data),
            Call::Seal => self.frames.push(Frame {
                messages: std::mem::take(&mut self.building),
                accepted: false,
                acknowledged: false,
            }),
            Call::Read(copy) => self.acknowledge(*copy),
        }
        Expected::NoEffect
    }

    fn open(&mut self, terms: Terms) {
        let unfinished = (self.lowest_unfinished..self.transactions.len())
            .filter(|earlier| !self.transactions[*earlier].is_finished());
        self.transactions.push(Transaction {
            terms,
            unfinished_at_opening: unfinished.collect(),
            added: 0,
            accepted: 0,
            released: 0,
        });
    }

    fn add(&mut self, number: u32, address: u32, data: &[u8]) {
        let total = self.transactions.len();
        // A card that adds to a transaction it never opened is beyond the book.
        let Some(transaction) = latest(total, self.start.transaction.into(), 1 << 32, number)
        else {
            return;
        };
        let entry = &mut self.transactions[transaction];
        self.building.push(Message {
            transaction,
            index: entry.added,
            address,
            data: data.to_vec(),
        });
        entry.added += 1;
    }

    fn hand_out(&self, call: &Call, refused: bool, handed_out: &[u8]) -> HandOut {
        let number = match call {
            _ if refused => return HandOut::Nothing,
            Call::Choose(lent) if lent == handed_out => return HandOut::Lent,
            Call::Show(number) => *number,
            // A frame that was chosen tells its number.
            _ => match handed_out.get(4..6) {
                Some(bytes) => u16::from_le_bytes([bytes[0], bytes[1]]),
                None => return HandOut::Nothing,
            },
        };
        self.latest_frame(number)
            .map_or(HandOut::Nothing, HandOut::Frame)
    }

    fn arrive(&mut self, copy: usize) -> Expected {
        let Some(HandOut::Frame(frame)) = self.hand_outs.get(copy).copied() else {
            return Expected::NoEffect;
        };
        let again = self.frames[frame].accepted;
        self.frames[frame].accepted = true;
        // Accepted and again each call for an acknowledgement (H19), of the run as it is
        // after the frame took effect (H24).
        let run = self.run_from(frame);
        self.acknowledgements
            .push(Acknowledgement { first: frame, run });
        if again {
            return Expected::Again { frame, run };
        }
        let (mut bytes, mut completed) = (0, Vec::new());
        for message in &self.frames[frame].messages {
            let transaction = &mut self.transactions[message.transaction];
            bytes += message.data.len() as u64;
            transaction.accepted += 1;
            if transaction.is_complete() {
                completed.push(message.transaction);
            }
        }
        let messages = self.frames[frame].messages.len() as u64;
        while self.is(self.lowest_not_accepted, |frame| frame.accepted) {
            self.lowest_not_accepted += 1;
        }
        Expected::Accepted {
            frame,
            messages,
            bytes,
            completed,
            run,
        }
    }

    /// How many frames from this one on are accepted, as far as one acknowledgement
    /// goes (H23).
    fn run_from(&self, frame: usize) -> u8 {
        let frames = self.frames[frame..].iter().take(LONGEST_RUN);
        frames.take_while(|frame| frame.accepted).count() as u8
    }

    /// Each of the acknowledgement's numbers means the latest frame with it (D15); one
    /// that is released is not acknowledged again (C14).
    fn acknowledge(&mut self, copy: usize) {
        let Some(&Acknowledgement { first, run }) = self.acknowledgements.get(copy) else {
            return;
        };
        for answered in first..first + usize::from(run) {
            let frame = self.latest_frame(self.frame_number(answered));
            let frame = frame.expect("the frame that was accepted has the number");
            if frame >= self.lowest_not_released {
                self.frames[frame].acknowledged = true;
            }
        }
        while self.is(self.lowest_not_released, |frame| frame.acknowledged) {
            self.release();
        }
    }

    fn release(&mut self) {
        for message in &self.frames[self.lowest_not_released].messages {
            let transaction = &mut self.transactions[message.transaction];
            transaction.released += 1;
            self.finished += usize::from(transaction.is_finished());
        }
        self.lowest_not_released += 1;
        let lowest = &self.transactions[self.lowest_unfinished..];
        self.lowest_unfinished += lowest
            .iter()
            .take_while(|entry| entry.is_finished())
            .count();
    }

    fn is(&self, frame: usize, test: impl Fn(&Frame) -> bool) -> bool {
        self.frames.get(frame).is_some_and(test)
    }

    fn latest_frame(&self, number: u16) -> Option<usize> {
        latest(
            self.frames.len(),
            self.start.frame.into(),
            1 << 16,
            number.into(),
        )
    }

    /// The memory: the starting one with, in order of opening, each transaction's data
    /// in accepted frames and, if it is complete, its completion (D18).
    pub fn memory(&self) -> Vec<u8> {
        let accepted = self.frames.iter().filter(|frame| frame.accepted);
        self.run(
            accepted.flat_map(|frame| &frame.messages),
            Transaction::is_complete,
        )
    }

    /// The memory as if all opened transactions had run whole, one after another.
    pub fn memory_whole(&self) -> Vec<u8> {
        self.run(self.added(), |_| true)
    }

    /// The messages and data bytes of accepted frames, and the complete transactions.
    pub fn totals(&self) -> Totals {
        let accepted = self.frames.iter().filter(|frame| frame.accepted);
        let mut totals = Totals::default();
        for message in accepted.flat_map(|frame| &frame.messages) {
            totals.messages += 1;
            totals.bytes += message.data.len() as u64;
        }
        let complete = self.transactions.iter().filter(|entry| entry.is_complete());
        totals.completed = complete.count() as u64;
        totals
    }

    fn run<'a>(
        &self,
        messages: impl Iterator<Item = &'a Message>,
        completes: impl Fn(&Transaction) -> bool,
    ) -> Vec<u8> {
        let mut by_transaction = vec![Vec::new(); self.transactions.len()];
        for message in messages {
            by_transaction[message.transaction].push(message);
        }
        let mut memory = self.starting_memory.clone();
        for (transaction, messages) in self.transactions.iter().zip(by_transaction) {
            for message in messages {
                write(&mut memory, message.address, &message.data);
            }
            if completes(transaction) {
                let Terms {
                    completion_address,
                    completion_value,
                    ..
                } = transaction.terms;
                write(
                    &mut memory,
                    completion_address,
                    &completion_value.to_le_bytes(),
                );
            }
        }
        memory
    }

    /// All messages added, in order; the frame being built comes last.
    pub fn added(&self) -> impl Iterator<Item = &Message> {
        let sealed = self.frames.iter().flat_map(|frame| &frame.messages);
        sealed.chain(&self.building)
    }

    /// The opened transactions.
    pub fn transactions(&self) -> &[Transaction] {
        &self.transactions
    }

    /// The sealed frames.
    pub fn frames(&self) -> &[Frame] {
        &self.frames
    }

    /// The messages in the frame being built.
    pub fn building(&self) -> &[Message] {
        &self.building
    }

    /// What showings and choices handed out.
    pub fn hand_outs(&self) -> &[HandOut] {
        &self.hand_outs
    }

    /// What acknowledgements were called for, in order.
    pub fn acknowledgements(&self) -> &[Acknowledgement] {
        &self.acknowledgements
    }

    /// The lowest frame not accepted, those not yet sealed among them.
    pub fn lowest_not_accepted(&self) -> usize {
        self.lowest_not_accepted
    }

    /// The lowest frame not released, those not yet sealed among them.
    pub fn lowest_not_released(&self) -> usize {
        self.lowest_not_released
    }

    /// The lowest transaction not finished, those not yet opened among them.
    pub fn lowest_unfinished(&self) -> usize {
        self.lowest_unfinished
    }

    /// Whether all opened transactions are finished.
    pub fn is_settled(&self) -> bool {
        self.finished == self.transactions.len()
    }

    /// The number of the frame of this count.
    pub fn frame_number(&self, frame: usize) -> u16 {
        (u64::from(self.start.frame) + frame as u64) as u16
    }

    /// The number of the transaction of this count.
    pub fn transaction_number(&self, transaction: usize) -> u32 {
        (u64::from(self.start.transaction) + transaction as u64) as u32
    }
}

/// The highest count below `total` whose number this is, where count 0 has the number
/// `first` and there are `numbers` of them (D15).
fn latest(total: usize, first: u64, numbers: u64, number: u32) -> Option<usize> {
    let after = (first + total as u64 + numbers - 1 - u64::from(number)) % numbers;
    (total as u64)
        .checked_sub(after + 1)
        .map(|count| count as usize)
}

/// Writes what lies inside memory; the premises see to it that all does.
fn write(memory: &mut [u8], address: u32, data: &[u8]) {
    let start = address as usize;
    if let Some(place) = memory.get_mut(start..start + data.len()) {
        place.copy_from_slice(data);
    }
}

#[cfg(test)]
mod tests;
