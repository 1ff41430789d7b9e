//! Seeded input for the replay program: a card's frames sent through a network that
//! loses, repeats and reorders, and frames aimed at the edges of the host's state,
//! both among damaged frames, noise and lines that are no frames.
//!
//! A card's book counts frames and transactions without wrapping them, so the answer
//! to its frames is known apart from the host's own rules and said with the line.

use crate::host::{Answer, Host, LONGEST_RUN, Terms};
use crate::refusal;
use crate::replay::{MEMORY, OWN, PEER};
use crate::rng::Rng;
use crate::wire::{
    FRAME_HEADER, LONGEST_FRAME, MESSAGE_HEADER, Message, TRAILING, next_header, write_frame,
};
use std::collections::{BTreeSet, VecDeque};
use std::rc::Rc;

/// What most lines of an input come from.
#[derive(Clone, Copy, Debug, PartialEq, Eq)]
pub enum Kind {
    /// A card's frames through a network; no other frame is accepted.
    Network,
    /// The same, with no byte written twice by a transaction or by two that are
    /// unfinished together. Memory then does not depend on the order of arrival.
    Apart,
    /// Frames made up from the host's state, good and bad; any may be accepted.
    Guided,
}

/// One line of input.
#[derive(Clone, Copy, Debug)]
pub struct Line<'a> {
    /// Without its newline.
    pub text: &'a [u8],
    /// How it came about.
    pub family: &'static str,
    /// The answer where it is known beforehand, which no message's refusal is.
    pub known: Option<Answer>,
}

/// Frames a card holds at most.
const SLOTS: usize = 64;
/// Transactions a card may have unfinished, counted from the lowest one.
const TRANSACTIONS: usize = 32;
/// Old frames kept for being late; more than all the frame numbers there are.
const OLD_FRAMES: usize = 70_000;

/// Frame numbers worth trying, from the next one on.
const NUMBER_STEPS: [u16; 24] = [
    0, 1, 2, 31, 32, 62, 63, 64, 65, 127, 128, 255, 256, 32_704, 32_766, 32_767, 32_768, 32_769,
    32_832, 65_471, 65_472, 65_473, 65_534, 65_535,
];

/// Transactions worth trying, from the lowest one not complete on.
const TRANSACTION_STEPS: [u32; 20] = [
    0,
    1,
    2,
    15,
    16,
    30,
    31,
    32,
    33,
    63,
    64,
    1 << 16,
    (1 << 31) - 1,
    1 << 31,
    (1 << 31) + 1,
    u32::MAX - 32,
    u32::MAX - 31,
    u32::MAX - 30,
    u32::MAX - 1,
    u32::MAX,
];

/// How late an old frame may come: both sides of every change of its answer.
const LATENESS: [u64; 14] = [
    1, 2, 63, 64, 65, 1_000, 32_767, 32_768, 32_769, 32_770, 65_472, 65_473, 65_536, 65_537,
];

/// Characters next to the digits, digits with a bit changed, and others that a
/// reader of lines may take for something else.
const BAD_CHARACTERS: [u8; 27] = [
    b'/', b':', b'@', b'G', b'`', b'g', b'x', b'X', b' ', b'\t', b'\r', 0x0b, 0x0c, 0, 0x10, 0x19,
    0x1a, b'-', b'+', b'.', b',', 0x7f, 0x80, 0xb0, 0xc1, 0xe6, 0xff,
];

/// A transaction at the card.
#[derive(Clone, Debug)]
struct Transaction {
    terms: Terms,
    /// Messages added, in accepted and in released frames.
    added: u16,
    accepted: u16,
    released: u16,
}

impl Transaction {
    fn messages(&self) -> u16 {
        self.terms.count.max(1)
    }
}

/// A frame at the card.
#[derive(Clone, Debug)]
struct Sealed {
    frame: Rc<[u8]>,
    /// The transaction of each message.
    messages: Vec<u64>,
    bytes: u64,
    acknowledged: bool,
}

/// A card that follows the rules, with its numbers not wrapped.
#[derive(Clone, Debug, Default)]
struct Card {
    /// The lowest frame not released.
    released: u64,
    /// The frames from there on.
    sealed: VecDeque<Sealed>,
    /// The lowest transaction not finished.
    finished: u64,
    /// The transactions from there on.
    transactions: VecDeque<Transaction>,
}

impl Card {
    fn acknowledge(&mut self, frame: u64) {
        let Some(index) = frame.checked_sub(self.released) else {
            return;
        };
        self.sealed[index as usize].acknowledged = true;
        while self.sealed.front().is_some_and(|front| front.acknowledged) {
            let frame = self.sealed.pop_front().expect("there is one");
            self.released += 1;
            for transaction in frame.messages {
                self.transactions[(transaction - self.finished) as usize].released += 1;
            }
            while let Some(front) = self.transactions.front()
                && front.released == front.messages()
            {
                self.transactions.pop_front();
                self.finished += 1;
            }
        }
    }

    /// A transaction that wants a message; the lowest one rather often.
    fn unfilled(&self, rng: &mut Rng) -> Option<u64> {
        let unfilled: Vec<u64> = (self.finished..)
            .zip(&self.transactions)
            .filter(|(_, transaction)| transaction.added < transaction.messages())
            .map(|(number, _)| number)
            .collect();
        match unfilled.first() {
            Some(first) if rng.chance(1, 3) => Some(*first),
            Some(_) => Some(rng.pick(&unfilled)),
            None => None,
        }
    }
}

/// Which of the card's frames the host has.
#[derive(Clone, Debug, Default)]
struct Book {
    /// The lowest frame not accepted.
    lowest: u64,
    /// Accepted frames past it.
    ahead: BTreeSet<u64>,
}

impl Book {
    fn has(&self, frame: u64) -> bool {
        frame < self.lowest || self.ahead.contains(&frame)
    }

    /// How many frames from this one on the host has, as far as an acknowledgement goes.
    fn run(&self, frame: u64) -> u8 {
        let frames = (frame..).take(LONGEST_RUN);
        frames.take_while(|frame| self.has(*frame)).count() as u8
    }

    fn accept(&mut self, frame: u64) {
        self.ahead.insert(frame);
        while self.ahead.remove(&self.lowest) {
            self.lowest += 1;
        }
    }
}

/// An endless input for one run of the program.
#[derive(Clone, Debug)]
pub struct Traffic {
    rng: Rng,
    kind: Kind,
    /// The program's host as the lines so far leave it, to aim at.
    host: Host,
    memory: Vec<u8>,
    card: Card,
    book: Book,
    /// Copies on their way.
    in_flight: Vec<(u64, Rc<[u8]>)>,
    /// The latest frames of the card up to the last one sealed.
    old: VecDeque<Rc<[u8]>>,
    /// Some latest frames of any kind that were given.
    recent: VecDeque<Rc<[u8]>>,
    /// Data is taken from here.
    data: Rc<[u8]>,
    text: Vec<u8>,
}

impl Traffic {
    /// Equal seeds and kinds give equal lines.
    pub fn new(seed: u64, kind: Kind) -> Traffic {
        let mut rng = Rng::new(seed);
        let data = rng.bytes(2 * MEMORY).into();
        Traffic {
            rng,
            kind,
            host: Host::open(OWN, PEER).0,
            memory: vec![0; MEMORY],
            card: Card::default(),
            book: Book::default(),
            in_flight: Vec::new(),
            old: VecDeque::new(),
            recent: VecDeque::new(),
            data,
            text: Vec::new(),
        }
    }

    /// Guided lines for a host with these numbers to come next. The program is never
    /// there at its start; other callers of a host can be.
    pub fn starting_at(seed: u64, next: u16, lowest: u32) -> Traffic {
        Traffic {
            host: Host::starting_at(OWN, PEER, next, lowest),
            ..Traffic::new(seed, Kind::Guided)
        }
    }

    /// The next line.
    pub fn next_line(&mut self) -> Line<'_> {
        let (family, known) = match self.kind {
            Kind::Network | Kind::Apart => self.network_line(),
            Kind::Guided => self.guided_line(),
        };
        Line {
            text: &self.text,
            family,
            known,
        }
    }

    /// The text of that many next lines, each with its newline.
    pub fn text(&mut self, lines: usize) -> Vec<u8> {
        let mut text = Vec::new();
        for _ in 0..lines {
            text.extend(self.next_line().text);
            text.push(b'\n');
        }
        text
    }

    /// What the host was last left in.
    pub fn host(&self) -> &Host {
        &self.host
    }

    fn network_line(&mut self) -> (&'static str, Option<Answer>) {
        loop {
            match self.rng.below(100) {
                0..3 => return self.odd_line(),
                3..15 => {
                    let (family, frame) = self.unexpected();
                    // A frame nobody sent must not take the place of one that was.
                    let mut host = self.host.clone();
                    let answer = host.receive(&frame, &mut self.memory.clone());
                    if !matches!(answer, Answer::Accepted { .. }) {
                        self.give(&frame);
                        return (family, None);
                    }
                }
                15..20 => {
                    if let Some(known) = self.late_copy() {
                        return ("late copy", known);
                    }
                }
                _ => {
                    let known = self.next_copy();
                    return ("copy", Some(known));
                }
            }
        }
    }

    fn guided_line(&mut self) -> (&'static str, Option<Answer>) {
        match self.rng.below(100) {
            0..3 => return self.odd_line(),
            3..10 => {
                let (family, frame) = self.unexpected();
                self.give(&frame);
                return (family, None);
            }
            _ => {}
        }
        let mut frame = self.guided_frame();
        let mut family = "guided";
        if self.rng.chance(1, 4) {
            self.mark_as_another_maker(&mut frame);
        }
        while self.rng.chance(1, 8) {
            frame = self.damaged(frame);
            family = "guided and damaged";
        }
        self.give(&frame);
        (family, None)
    }

    /// Another maker's card announces a message by any byte but 0.
    fn mark_as_another_maker(&mut self, frame: &mut [u8]) {
        for header in headers(frame) {
            if frame[header + TRAILING] > 0 {
                frame[header + TRAILING] = self.rng.between(1, 255) as u8;
            }
        }
    }

    /// Lets the host have the frame and spells it.
    fn give(&mut self, frame: &[u8]) -> Answer {
        self.spell(frame);
        if self.recent.len() == 200 {
            self.recent.pop_front();
        }
        self.recent.push_back(frame.into());
        self.host.receive(frame, &mut self.memory)
    }

    /// Spells bytes in lower case, in upper case or in both.
    fn spell(&mut self, bytes: &[u8]) {
        const LOWER: &[u8; 16] = b"0123456789abcdef";
        const UPPER: &[u8; 16] = b"0123456789ABCDEF";
        let style = self.rng.below(4);
        self.text.clear();
        for byte in bytes {
            let upper = match style {
                0 | 1 => 0,
                2 => 3,
                _ => self.rng.next_u8(),
            };
            let high = if upper & 1 == 0 { LOWER } else { UPPER };
            let low = if upper & 2 == 0 { LOWER } else { UPPER };
            self.text.push(high[usize::from(byte >> 4)]);
            self.text.push(low[usize::from(byte & 15)]);
        }
    }

    // The card and the network.

    /// The next of the copies on their way, in any order.
    fn next_copy(&mut self) -> Answer {
        let wanted = self.rng.between(1, 24);
        while self.in_flight.len() < wanted {
            let full = self.card.sealed.len() == SLOTS;
            if !full && !self.rng.chance(1, 20) && self.seal_next() {
                continue;
            }
            // Now and then too early, which makes a repeat.
            if !self.in_flight.is_empty() && !self.rng.chance(1, 12) {
                break;
            }
            self.send_again();
        }
        // Mostly not far out of order, so that the window moves.
        let reach = if self.rng.chance(1, 4) { wanted } else { 3 };
        let index = self.rng.below(reach.min(self.in_flight.len()));
        let (frame, bytes) = self.in_flight.remove(index);
        let known = self.arrival(frame).expect("a copy in time has an answer");
        self.give(&bytes);
        if self.rng.chance(9, 10) {
            self.card.acknowledge(frame);
        }
        known
    }

    /// Sends the oldest held frame or any other held one, if there is one.
    fn send_again(&mut self) {
        let held: Vec<u64> = (self.card.released..)
            .zip(&self.card.sealed)
            .filter(|(_, sealed)| !sealed.acknowledged)
            .map(|(number, _)| number)
            .collect();
        let Some(&oldest) = held.first() else {
            return;
        };
        let frame = if self.rng.chance(3, 4) {
            oldest
        } else {
            self.rng.pick(&held)
        };
        let index = (frame - self.card.released) as usize;
        let bytes = Rc::clone(&self.card.sealed[index].frame);
        self.in_flight.push((frame, bytes));
    }

    /// Builds a frame, seals it and sends it none, one or two times; not if there is
    /// nothing to add and nothing can be opened before old frames are released.
    fn seal_next(&mut self) -> bool {
        let data = Rc::clone(&self.data);
        let limit = match self.rng.below(40) {
            0 => LONGEST_FRAME,
            1..4 => 1_500,
            4..8 => 34,
            8..12 => 66,
            _ => 250,
        };
        let most = match self.rng.below(40) {
            0 => 400,
            1..10 => 8,
            _ => 2,
        };
        let most = self.rng.between(1, most);
        let mut messages = Vec::new();
        let mut transactions = Vec::new();
        let mut end = FRAME_HEADER;
        while messages.len() < most {
            let room = limit as i64 - (next_header(end) + MESSAGE_HEADER) as i64;
            let Ok(room) = usize::try_from(room) else {
                break;
            };
            let Some(transaction) = self.transaction_to_add_to() else {
                break;
            };
            let index = (transaction - self.card.finished) as usize;
            let terms = self.card.transactions[index].terms;
            let added = self.card.transactions[index].added;
            self.card.transactions[index].added += 1;
            let mut length = if terms.count == 0 {
                0
            } else {
                self.length().min(room)
            };
            let mut data_address = self.address(length);
            if self.kind == Kind::Apart {
                length = length.min(PART);
                data_address = own_part(transaction) + PART as u32 * u32::from(added);
            }
            let start = self.rng.below(data.len() - length);
            messages.push(Message {
                transaction: transaction as u32,
                completion_address: terms.completion_address,
                completion_value: terms.completion_value,
                count: terms.count,
                data_address,
                data: &data[start..start + length],
            });
            transactions.push(transaction);
            end = next_header(end) + MESSAGE_HEADER + length;
        }
        if messages.is_empty() {
            return false;
        }
        let number = self.card.released + self.card.sealed.len() as u64;
        let frame: Rc<[u8]> = write_frame(OWN, PEER, number as u16, &messages).into();
        assert!(frame.len() <= limit && frame.len() == end);
        self.card.sealed.push_back(Sealed {
            frame: Rc::clone(&frame),
            messages: transactions,
            bytes: messages
                .iter()
                .map(|message| message.data.len() as u64)
                .sum(),
            acknowledged: false,
        });
        if self.old.len() == OLD_FRAMES {
            self.old.pop_front();
        }
        self.old.push_back(Rc::clone(&frame));
        for _ in 0..self.rng.pick(&[0, 1, 1, 1, 1, 1, 1, 1, 1, 1, 2, 2]) {
            self.in_flight.push((number, Rc::clone(&frame)));
        }
        true
    }

    fn transaction_to_add_to(&mut self) -> Option<u64> {
        let may_open = self.card.transactions.len() < TRANSACTIONS;
        if may_open && self.rng.chance(1, 3) {
            return Some(self.open_transaction());
        }
        match self.card.unfilled(&mut self.rng) {
            None if may_open => Some(self.open_transaction()),
            unfilled => unfilled,
        }
    }

    fn open_transaction(&mut self) -> u64 {
        let number = self.card.finished + self.card.transactions.len() as u64;
        let mut terms = Terms {
            count: self.count(),
            completion_address: self.address(4),
            completion_value: self.rng.next_u32(),
        };
        if self.kind == Kind::Apart {
            terms.count = terms.count.min(PARTS);
            terms.completion_address = own_part(number) + PART as u32 * u32::from(PARTS);
        }
        self.card.transactions.push_back(Transaction {
            terms,
            added: 0,
            accepted: 0,
            released: 0,
        });
        number
    }

    /// What the book says of a copy that arrives now, and enters it. Where a number
    /// may have come into the window once more, it says nothing.
    fn arrival(&mut self, frame: u64) -> Option<Answer> {
        let late = self.book.lowest.saturating_sub(frame);
        if self.book.has(frame) {
            return match late {
                0..=32_768 => Some(Answer::Again {
                    number: frame as u16,
                    run: self.book.run(frame),
                }),
                32_769..=65_472 => Some(Answer::Refused {
                    number: refusal::FRAME_AHEAD,
                    place: 0,
                }),
                _ => None,
            };
        }
        self.book.accept(frame);
        let sealed = &self.card.sealed[(frame - self.card.released) as usize];
        let mut completed = 0;
        for transaction in &sealed.messages {
            let index = (transaction - self.card.finished) as usize;
            let transaction = &mut self.card.transactions[index];
            transaction.accepted += 1;
            completed += u64::from(transaction.accepted == transaction.messages());
        }
        Some(Answer::Accepted {
            number: frame as u16,
            messages: sealed.messages.len() as u64,
            bytes: sealed.bytes,
            completed,
            run: self.book.run(frame),
        })
    }

    /// An old frame of the card, often one that is just late enough or not. The
    /// outer option is empty if there is no such frame.
    fn late_copy(&mut self) -> Option<Option<Answer>> {
        let late = if self.rng.chance(3, 4) {
            self.rng.pick(&LATENESS)
        } else {
            self.rng.between(1, 66_000) as u64
        };
        let frame = self.book.lowest.checked_sub(late)?;
        let sealed = self.card.released + self.card.sealed.len() as u64;
        let index = (self.old.len() as u64).checked_sub(sealed - frame)?;
        let bytes = Rc::clone(&self.old[index as usize]);
        let known = self.arrival(frame);
        if known.is_none() {
            let mut host = self.host.clone();
            let answer = host.receive(&bytes, &mut self.memory.clone());
            if matches!(answer, Answer::Accepted { .. }) {
                return None;
            }
        }
        self.give(&bytes);
        Some(known)
    }

    // Numbers for messages that are in order.

    fn count(&mut self) -> u16 {
        let count = match self.rng.below(100) {
            0..25 => 0,
            25..55 => 1,
            55..88 => self.rng.between(2, 4),
            88..98 => self.rng.between(5, 20),
            _ => self.rng.between(21, 300),
        };
        count as u16
    }

    fn length(&mut self) -> usize {
        match self.rng.below(100) {
            0..30 => 0,
            30..80 => self.rng.between(1, 16),
            80..98 => self.rng.between(1, 64),
            98 => self.rng.between(1, 600),
            _ => self.rng.between(1, MEMORY),
        }
    }

    /// An address at which that many bytes fit.
    fn address(&mut self, length: usize) -> u32 {
        let last = MEMORY - length;
        let address = match self.rng.below(8) {
            0 => 0,
            1 => last,
            _ => self.rng.between(0, last),
        };
        address as u32
    }

    // Frames made up from the host's state.

    fn guided_frame(&mut self) -> Vec<u8> {
        let step = match self.rng.below(20) {
            0..10 => 0,
            10..16 => self.rng.between(0, 63) as u16,
            16..18 => self.rng.pick(&[62, 63, 64]),
            _ => self.rng.pick(&NUMBER_STEPS),
        };
        let number = self.host.next().wrapping_add(step);
        let most = match self.rng.below(200) {
            0 => 374,
            1..4 => 60,
            4..30 => 10,
            _ => 3,
        };
        let most = self.rng.between(1, most);
        // Beside a card only the refused ones of these frames are of use.
        let whole = if self.kind == Kind::Guided { 4 } else { 1 };
        let bad = if self.rng.chance(1, whole) {
            self.rng.below(most)
        } else {
            most
        };
        let data = Rc::clone(&self.data);
        // What the messages before one leave decides what is in order next.
        let mut host = self.host.clone();
        let mut memory = self.memory.clone();
        let mut messages = Vec::new();
        let mut end = FRAME_HEADER;
        for index in 0..most {
            let (mut message, length) = self.good_message(&host);
            let start = self.rng.below(data.len() - length);
            message.data = &data[start..start + length];
            if index == bad {
                self.spoil(&mut message, &host, &data);
                // Once more what may just have been completed.
                if let Some(&before) = messages.last()
                    && self.rng.chance(1, 8)
                {
                    message = before;
                }
            }
            end = next_header(end) + MESSAGE_HEADER + message.data.len();
            if end > LONGEST_FRAME && !messages.is_empty() {
                break;
            }
            // A refused one leaves all as it was, here as well.
            let _ = host.take(&message, &mut memory);
            messages.push(message);
        }
        self.fill_up(&host, &mut messages);
        write_frame(OWN, PEER, number, &messages)
    }

    /// Fills a frame of few messages with those of a transaction that wants many, so
    /// that it ends some day.
    fn fill_up(&mut self, host: &Host, messages: &mut Vec<Message>) {
        let Some(open) = host.open_transactions().get(&host.lowest()) else {
            return;
        };
        let missing = usize::from(open.terms.count - open.received);
        if missing > 40 && messages.len() < 4 && self.rng.chance(1, 4) {
            let message = Message {
                transaction: host.lowest(),
                completion_address: open.terms.completion_address,
                completion_value: open.terms.completion_value,
                count: open.terms.count,
                data_address: self.address(0),
                data: &[],
            };
            let most = missing.min(200);
            messages.extend(std::iter::repeat_n(message, most));
        }
    }

    /// A message that this host takes, without its data, and the data's length.
    fn good_message(&mut self, host: &Host) -> (Message<'static>, usize) {
        let open: Vec<u32> = host.open_transactions().keys().copied().collect();
        let free: Vec<u32> = (0..TRANSACTIONS as u32)
            .map(|step| host.lowest().wrapping_add(step))
            .filter(|number| !open.contains(number) && !host.is_closed(*number))
            .collect();
        let transaction = if open.contains(&host.lowest()) && self.rng.chance(1, 4) {
            host.lowest()
        } else if !open.is_empty() && (free.is_empty() || self.rng.chance(1, 2)) {
            self.rng.pick(&open)
        } else if self.rng.chance(1, 2) {
            free[0]
        } else if self.rng.chance(1, 4) {
            free[free.len() - 1]
        } else {
            self.rng.pick(&free)
        };
        let terms = match host.open_transactions().get(&transaction) {
            Some(open) => open.terms,
            None => Terms {
                count: if self.rng.chance(1, 20_000) {
                    self.rng.pick(&[256, 257, 32_768, 65_535])
                } else {
                    self.count()
                },
                completion_address: self.address(4),
                completion_value: self.rng.next_u32(),
            },
        };
        let length = if terms.count == 0 { 0 } else { self.length() };
        let message = Message {
            transaction,
            completion_address: terms.completion_address,
            completion_value: terms.completion_value,
            count: terms.count,
            data_address: self.address(length),
            data: &[],
        };
        (message, length)
    }

    /// Gives a message one of the faults that 7 to 12 are about, or several.
    fn spoil<'a>(&mut self, message: &mut Message<'a>, host: &Host, data: &'a [u8]) {
        loop {
            match self.rng.below(8) {
                0 => {
                    let step = self.rng.pick(&TRANSACTION_STEPS);
                    message.transaction = host.lowest().wrapping_add(step);
                }
                1 => {
                    let closed: Vec<u32> = host.closed_transactions().iter().copied().collect();
                    if !closed.is_empty() {
                        message.transaction = self.rng.pick(&closed);
                    }
                }
                2 => self.contradict(message, host),
                3 | 4 => {
                    message.count = 0;
                    let length = self.rng.pick(&[1, 1, 2, 64]);
                    message.data = &data[..length];
                    message.data_address = self.address(length);
                }
                5 => message.data_address = self.edge(message.data.len()),
                6 => message.completion_address = self.edge(4),
                _ => {
                    message.data_address = self.edge(message.data.len());
                    message.completion_address = self.edge(4);
                }
            }
            if !self.rng.chance(1, 4) {
                return;
            }
        }
    }

    /// Changes one field of an open transaction's message.
    fn contradict(&mut self, message: &mut Message, host: &Host) {
        let open: Vec<u32> = host.open_transactions().keys().copied().collect();
        if open.is_empty() {
            return;
        }
        message.transaction = self.rng.pick(&open);
        let terms = host.open_transactions()[&message.transaction].terms;
        message.count = terms.count;
        message.completion_address = terms.completion_address;
        message.completion_value = terms.completion_value;
        match self.rng.below(4) {
            0 => message.count = self.rng.pick(&[0, 1, terms.count - 1, terms.count ^ 0x100]),
            1 => message.completion_address ^= 1 << self.rng.below(12),
            2 => message.completion_value ^= 1 << self.rng.below(32),
            _ => message.completion_address = self.address(4),
        }
    }

    /// An address at which that many bytes only just fit, or do not.
    fn edge(&mut self, length: usize) -> u32 {
        let length = length as u32;
        let end = MEMORY as u32;
        self.rng.pick(&[
            end.saturating_sub(length),
            end.saturating_sub(length) + 1,
            end - 1,
            end,
            end + 1,
            1 << 16,
            1 << 31,
            u32::MAX,
            u32::MAX - 3,
            // Sums of 2^32 and of one more, which are 0 and 1 in 32 bits.
            0u32.wrapping_sub(length),
            1u32.wrapping_sub(length),
        ])
    }

    // Frames that no card sends, and lines that are no frames.

    fn unexpected(&mut self) -> (&'static str, Vec<u8>) {
        match self.rng.below(10) {
            0 => ("no messages", self.without_messages()),
            1 => ("noise", self.noise()),
            2 => {
                let frame = self.guided_frame();
                ("long or nearly", self.lengthened(frame))
            }
            3 | 4 if !self.recent.is_empty() => {
                let index = self.rng.below(self.recent.len());
                ("repeated", self.recent[index].to_vec())
            }
            5..8 if !self.recent.is_empty() => {
                let index = self.rng.below(self.recent.len());
                let mut frame = self.recent[index].to_vec();
                // Under a number that may be accepted its messages are looked at.
                if frame.len() >= 6 && self.rng.chance(1, 2) {
                    let number = self.host.next().to_le_bytes();
                    frame[4..6].copy_from_slice(&number);
                }
                ("damaged", self.damaged(frame))
            }
            _ => {
                let frame = self.guided_frame();
                ("guided and damaged", self.damaged(frame))
            }
        }
    }

    fn without_messages(&mut self) -> Vec<u8> {
        let number = self.host.next().wrapping_add(self.rng.pick(&NUMBER_STEPS));
        let mut frame = write_frame(OWN, PEER, number, &[]);
        if self.rng.chance(1, 2) {
            self.rng.fill(&mut frame[6..9]);
        }
        if self.rng.chance(1, 3) {
            let length = self.rng.below(60);
            frame.extend(self.rng.bytes(length));
        }
        if self.rng.chance(1, 40) {
            frame = self.lengthened(frame);
        }
        frame
    }

    fn noise(&mut self) -> Vec<u8> {
        let length = match self.rng.below(40) {
            0 => self.rng.between(0, 9_010),
            1..10 => self.rng.between(0, 10),
            _ => self.rng.between(8, 80),
        };
        let mut frame = self.rng.bytes(length);
        if length >= FRAME_HEADER && self.rng.chance(3, 4) {
            let number = self.host.next().to_le_bytes();
            frame[..6].copy_from_slice(&[1, 0, 2, 0, number[0], number[1]]);
            if self.rng.chance(1, 2) {
                frame[9] = 1;
            }
        }
        frame
    }

    /// Behind the last message anything may stand, up to the longest frame.
    fn lengthened(&mut self, mut frame: Vec<u8>) -> Vec<u8> {
        let length = if self.rng.chance(1, 6) {
            self.rng.pick(&[8_998, 8_999, 9_000, 9_001, 9_002, 9_003])
        } else {
            frame.len() + self.rng.between(1, 30)
        };
        let fill = self.rng.next_u8();
        frame.resize(length, fill);
        frame
    }

    /// Changes a frame in one way, often one that an edge of the rules is about.
    fn damaged(&mut self, mut frame: Vec<u8>) -> Vec<u8> {
        let headers = headers(&frame);
        let way = if headers.is_empty() || frame.len() < FRAME_HEADER {
            self.rng.below(3)
        } else {
            self.rng.below(16)
        };
        let header = if headers.is_empty() {
            0
        } else {
            self.rng.pick(&headers)
        };
        let lowest = self.host.lowest();
        match way {
            0 => {
                for _ in 0..self.rng.between(1, 3) {
                    if !frame.is_empty() {
                        let at = self.rng.below(frame.len());
                        frame[at] ^= 1 << self.rng.below(8);
                    }
                }
            }
            1 => {
                let length = self.rng.below(frame.len() + 1);
                frame.truncate(length);
            }
            2 => frame = self.lengthened(frame),
            3 => {
                frame.pop();
            }
            4 => {
                let ids = [
                    [1, 0, 1, 0],
                    [2, 0, 1, 0],
                    [2, 0, 2, 0],
                    [0, 0, 2, 0],
                    [1, 0, 0, 0],
                    [1, 1, 2, 0],
                    [1, 0, 2, 1],
                ];
                let ids = self.rng.pick(&ids);
                frame[..4].copy_from_slice(&ids);
            }
            5 => frame[9] ^= 1 << self.rng.below(8),
            6 => frame[9] = self.rng.next_u8(),
            7 | 8 => {
                let step = self.rng.pick(&NUMBER_STEPS);
                let number = self.host.next().wrapping_add(step);
                frame[4..6].copy_from_slice(&number.to_le_bytes());
            }
            9 => {
                let step = self.rng.pick(&TRANSACTION_STEPS);
                let transaction = lowest.wrapping_add(step).to_le_bytes();
                frame[header..header + 4].copy_from_slice(&transaction);
            }
            10 => frame[header + 12] ^= self.rng.pick(&[1, 2, 3]),
            11 => {
                let address = self.edge(4).to_le_bytes();
                frame[header + 4..header + 8].copy_from_slice(&address);
            }
            12 => {
                let address = self.edge(8).to_le_bytes();
                frame[header + 16..header + 20].copy_from_slice(&address);
            }
            13 => {
                let any = self.rng.next_u8();
                frame[header + TRAILING] = self.rng.pick(&[0, 0, 1, 2, 0x80, 0xff, any, any]);
            }
            14 => {
                let length = self.rng.pick(&[0u16, 1, 8, 255, 256, 8_966, 65_535]);
                frame[header + 20..header + 22].copy_from_slice(&length.to_le_bytes());
            }
            _ => {
                // Unused fields are of no account.
                self.rng.fill(&mut frame[header + 14..header + 16]);
                frame[header + 22] = self.rng.next_u8();
            }
        }
        frame
    }

    /// A line that is empty, too long or not hexadecimal.
    fn odd_line(&mut self) -> (&'static str, Option<Answer>) {
        const FAMILY: &str = "odd line";
        let frame = self.guided_frame();
        self.spell(&frame);
        let length = self.text.len();
        match self.rng.below(64) {
            0..8 => {
                self.text.clear();
                let known = self.host.receive(&[], &mut self.memory);
                return (FAMILY, Some(known));
            }
            8..16 => {
                self.text.remove(self.rng.below(length));
            }
            16..24 => {
                let at = self.rng.below(length);
                self.text[at] = self.rng.pick(&BAD_CHARACTERS);
            }
            24..30 => {
                let at = self.rng.between(0, length);
                let bad = self.rng.pick(&BAD_CHARACTERS);
                self.text.insert(at, bad);
            }
            30..36 => self.text.push(b'\r'),
            36..40 => {
                // Even in length, and bad for a character alone.
                let bad = self.rng.pick(&BAD_CHARACTERS);
                self.text.push(bad);
                self.text.push(b'0');
            }
            40..44 => {
                self.text.splice(0..0, *b"0x");
            }
            44..48 => self.text.truncate(2 * self.rng.below(length / 2) + 1),
            48..54 => {
                let one = self.rng.pick(b"0aF9gG \r\t\0\xff");
                self.text = vec![one];
            }
            54..60 => {
                let length = self.rng.between(1, 30);
                self.text = self.rng.bytes(length);
                self.text.retain(|byte| *byte != b'\n');
                self.text.push(b'z');
            }
            _ => return (FAMILY, Some(self.long_line())),
        }
        let known = Answer::Refused {
            number: refusal::BAD_LINE,
            place: 0,
        };
        (FAMILY, Some(known))
    }

    /// A frame without messages about as long as may be, or a far longer one; perhaps
    /// with a wrong ID or a reserved flag, and perhaps with a bad character in it.
    fn long_line(&mut self) -> Answer {
        const LONGEST_LINE: usize = 2 * LONGEST_FRAME;
        let length = match self.rng.below(12) {
            0 => self.rng.between(40_000, 140_000),
            _ => self.rng.between(LONGEST_LINE - 2, LONGEST_LINE + 3),
        };
        let source = self.rng.pick(&[2, 2, 2, 1]);
        let flags = self.rng.pick(&[0, 0, 0, 2]);
        self.spell(&[1, 0, source, 0, 5, 0, 0, 0, 0, flags]);
        self.text.resize(length, b'7');
        let bad = self.rng.chance(1, 3);
        if bad {
            let at = self.rng.pick(&[0, 1, 9_000, LONGEST_LINE - 3, length - 1]);
            self.text[at] = self.rng.pick(&BAD_CHARACTERS);
        }
        let refusals = [
            (bad || length % 2 == 1, refusal::BAD_LINE),
            (length > LONGEST_LINE, refusal::FRAME_LONG),
            (source != 2, refusal::WRONG_ID),
            (flags != 0, refusal::RESERVED_FLAG),
        ];
        match refusals.iter().find(|(met, _)| *met) {
            Some((_, number)) => Answer::Refused {
                number: *number,
                place: 0,
            },
            None => Answer::NoMessages,
        }
    }
}

/// Data bytes of a message and messages of a transaction that writes apart from the
/// others; with the completion they take a 32nd of memory.
const PART: usize = 8;
const PARTS: u16 = (MEMORY / TRANSACTIONS / PART - 1) as u16;

/// Where such a transaction writes. Another at the same place is opened only after
/// this one is finished.
fn own_part(transaction: u64) -> u32 {
    let parts = (MEMORY / TRANSACTIONS) as u64;
    (transaction % TRANSACTIONS as u64 * parts) as u32
}

/// Where the message headers of a frame stand, as far as they are all there.
fn headers(frame: &[u8]) -> Vec<usize> {
    let mut headers = Vec::new();
    let mut at = FRAME_HEADER;
    while let Some(header) = frame.get(at..at + MESSAGE_HEADER) {
        headers.push(at);
        let length = u16::from_le_bytes([header[20], header[21]]);
        if header[TRAILING] == 0 {
            break;
        }
        at = next_header(at + MESSAGE_HEADER + usize::from(length));
    }
    headers
}

#[cfg(test)]
mod tests {
    use super::*;
    use crate::replay::{Replay, bytes_of};
    use crate::wire;
    use std::collections::BTreeMap;

    /// Runs lines through the program and calls `see` for each with its answer.
    fn each(seed: u64, kind: Kind, lines: usize, mut see: impl FnMut(&Line, Answer)) -> Replay {
        let mut traffic = Traffic::new(seed, kind);
        let mut replay = Replay::new();
        for index in 0..lines {
            let line = traffic.next_line();
            assert!(!line.text.contains(&b'\n'));
            let answer = replay.line(line.text);
            if let Some(known) = line.known {
                assert_eq!(
                    answer, known,
                    "seed {seed}, line {index}, family '{}'",
                    line.family
                );
            }
            see(&line, answer);
        }
        assert_eq!(replay.host(), traffic.host());
        replay
    }

    #[test]
    fn the_book_knows_what_the_host_answers_to_copies() {
        let mut known = [0; 3];
        let replay = each(1, Kind::Network, 250_000, |line, answer| {
            if line.family == "copy" || line.family == "late copy" {
                assert!(line.known.is_some() || line.family == "late copy");
                match answer {
                    Answer::Accepted { .. } => known[0] += 1,
                    Answer::Again { .. } => known[1] += 1,
                    _ => known[2] += 1,
                }
            } else {
                assert!(!matches!(answer, Answer::Accepted { .. }));
            }
        });
        println!("accepted, again, too late: {known:?}; {}", replay.totals());
        assert!(known[0] > 2 * 65_536 && known[1] > 20_000 && known[2] > 500);
    }

    /// Memory as a list of transactions says, each written whole in order of opening,
    /// whatever order its frames came in.
    #[test]
    fn memory_is_as_if_transactions_had_run_one_after_another() {
        type Writes = Vec<(u32, Vec<u8>)>;
        let mut transactions: BTreeMap<u32, (Terms, Writes)> = BTreeMap::new();
        let mut completed = 0;
        let replay = each(6, Kind::Apart, 150_000, |line, answer| {
            if !matches!(answer, Answer::Accepted { .. }) {
                return;
            }
            let bytes = bytes_of(line.text).unwrap();
            for message in wire::read(&bytes, None).unwrap().messages {
                let terms = Terms {
                    count: message.count,
                    completion_address: message.completion_address,
                    completion_value: message.completion_value,
                };
                let transaction = transactions.entry(message.transaction);
                let (_, writes) = transaction.or_insert((terms, Vec::new()));
                writes.push((message.data_address, message.data.to_vec()));
            }
        });
        let mut expected = vec![0; MEMORY];
        for (terms, mut writes) in transactions.into_values() {
            if writes.len() == usize::from(terms.count.max(1)) {
                let value = terms.completion_value.to_le_bytes();
                writes.push((terms.completion_address, value.to_vec()));
                completed += 1;
            }
            for (address, data) in writes {
                expected[address as usize..][..data.len()].copy_from_slice(&data);
            }
        }
        assert!(replay.memory() == expected);
        assert_eq!(replay.totals().completed, completed);
        assert!(completed > 20_000);
    }

    #[test]
    fn guided_lines_get_on() {
        let replay = each(2, Kind::Guided, 250_000, |_, _| ());
        println!("{}, lowest {}", replay.totals(), replay.host().lowest());
        assert!(replay.totals().completed > 100_000);
    }

    #[test]
    fn every_kind_of_answer_is_met() {
        for (seed, kind) in [(3, Kind::Network), (4, Kind::Guided)] {
            let mut met = [0; 15];
            let mut other = [0; 3];
            each(seed, kind, 100_000, |_, answer| match answer {
                Answer::Accepted { .. } => other[0] += 1,
                Answer::Again { .. } => other[1] += 1,
                Answer::NoMessages => other[2] += 1,
                Answer::Refused { number, .. } => met[usize::from(number)] += 1,
            });
            println!("{kind:?}: accepted, again, none {other:?}, refused {met:?}");
            assert!(other.iter().all(|times| *times > 100));
            for number in (1..=12).chain([14]) {
                assert!(met[number] > 20, "{kind:?}: {number} met {}", met[number]);
            }
        }
    }

    #[test]
    fn lines_are_the_same_for_the_same_seed_only() {
        for kind in [Kind::Network, Kind::Guided] {
            let text = |seed| Traffic::new(seed, kind).text(2_000);
            assert!(text(7) == text(7));
            assert!(text(7) != text(8));
        }
    }

    #[test]
    fn headers_are_found() {
        let mut traffic = Traffic::new(5, Kind::Guided);
        for _ in 0..2_000 {
            let frame = traffic.guided_frame();
            let messages = wire::read(&frame, None).map(|frame| frame.messages.len());
            if let Ok(messages) = messages {
                assert_eq!(headers(&frame).len(), messages);
            }
        }
    }
}
