//! A replay program into which one fault at a time can be put, to show that the
//! generated lines would uncover it. Without a fault it has to agree with the
//! independent one, or it would be told apart for a reason of its own.

use reference::host::Answer;
use std::collections::{BTreeMap, BTreeSet};

/// Where a fault can be seen. The program prints answers only, so what is wrong in
/// memory or in an acknowledgement takes a caller of the host to find out.
#[derive(Clone, Copy, Debug, PartialEq, Eq)]
pub enum Seen {
    /// In the program's lines.
    Output,
    /// In the bytes of memory, with all lines as they should be.
    Memory,
    /// In what is sent back to the card.
    Acknowledgement,
    /// In answers of a host near the end of the transaction numbers.
    PastTheEnd,
}

macro_rules! faults {
    ($($(#[$doc:meta])* $name:ident => $seen:ident,)*) => {
        /// What a program may get wrong.
        #[derive(Clone, Copy, Debug, PartialEq, Eq)]
        pub enum Fault {
            $($(#[$doc])* $name,)*
        }

        impl Fault {
            pub const ALL: &[Fault] = &[$(Fault::$name,)*];

            /// Where it has to be seen.
            pub fn seen(self) -> Seen {
                match self {
                    $(Fault::$name => Seen::$seen,)*
                }
            }
        }
    };
}

faults! {
    // Hosts that do nothing, or the same for all.
    RefusesAll => Output,
    AgainToAll => Output,
    /// The rest is merely acknowledged.
    OnlyFirstAccepted => Output,
    /// The rest is answered with its numbers and not written.
    OnlyFirstWritten => Memory,
    InventsMessages => Output,
    InventsBytes => Output,
    InventsCompleted => Output,
    CompletionBytesCounted => Output,
    EmptyMessagesNotCounted => Output,

    // Frame numbers.
    FramesByLessThan => Output,
    Window63 => Output,
    Window65 => Output,
    BehindFrom32767 => Output,
    BehindFrom32769 => Output,
    BehindIsRefused => Output,
    AheadIsAccepted => Output,
    NextMovesByOne => Output,
    NextMovesToLast => Output,
    NumbersNotMarked => Output,
    RefusedNumberMarked => Output,
    NoMessagesUsesNumber => Output,
    AckFieldsMatter => Output,

    // Transactions.
    TransactionsByLessThan => PastTheEnd,
    TransactionsIn31Bits => Output,
    TransactionWindow31 => Output,
    TransactionWindow33 => Output,
    LowestMovesByOne => Output,
    ClosedForgotten => Output,
    BareStaysOpen => Output,
    FirstMessageCompletes => Output,
    OneMessageTooMany => Output,
    ReceivedIn8Bits => Output,
    CountedOncePerFrame => Output,
    JudgedAgainstEntry => Output,
    EffectsOfRefusedStay => Output,
    BytesOfRefusedStay => Memory,

    // Refusals left out or taken for others.
    SevenForEight => Output,
    EightForSevenBehind => Output,
    EightForClosedInFrame => Output,
    NineWithoutCount => Output,
    NineWithoutAddress => Output,
    NineWithoutValue => Output,
    NineForOpenOnlyWithData => Output,
    TenLeftOut => Output,
    ElevenLeftOut => Output,
    ElevenNotForEmpty => Output,
    ElevenIn32Bits => Output,
    ElevenOneLess => Output,
    ElevenOneMore => Output,
    TwelveLeftOut => Output,
    TwelveOnCompletingOnly => Output,
    TwelveIn32Bits => Output,
    TwelveOneLess => Output,
    TwelveOneMore => Output,
    ThreeWithoutSource => Output,
    ThreeWithoutDestination => Output,

    // Orders.
    ThreeBeforeTwo => Output,
    FourBeforeThree => Output,
    FiveBeforeFour => Output,
    FiveBeforeNoMessages => Output,
    SixBeforeFive => Output,
    AgainBeforeFive => Output,
    SixBeforeNoMessages => Output,
    AgainBeforeNoMessages => Output,
    NoMessagesBeforeFour => Output,
    MessagesBeforeSix => Output,
    MessagesBeforeAgain => Output,
    MessagesBeforeFive => Output,
    TenBeforeSeven => Output,
    TenBeforeEight => Output,
    TenBeforeNine => Output,
    ElevenBeforeNine => Output,
    ElevenBeforeTen => Output,
    TwelveBeforeEleven => Output,
    LastRefusalGiven => Output,

    // Numbers mistaken for their neighbours.
    OneAsTwo => Output,
    TwoAsOne => Output,
    ThreeAsFour => Output,
    FourAsFive => Output,
    FiveAsSix => Output,
    SixAsFive => Output,
    SevenAsEight => Output,
    EightAsNine => Output,
    NineAsTen => Output,
    TenAsNine => Output,
    ElevenAsTwelve => Output,
    TwelveAsEleven => Output,
    FourteenAsThirteen => Output,

    // Layout.
    LongestOneLess => Output,
    LongestOneMore => Output,
    TrailingOnly1 => Output,
    RoundedFromStart => Output,

    // Bytes.
    CompletionBeforeData => Memory,
    CompletionAfterFrame => Memory,
    CompletionBigEndian => Memory,
    DataOneByteShort => Memory,

    // Acknowledgements.
    RepeatNotAcknowledged => Acknowledgement,
    NextAcknowledged => Acknowledgement,
    AcknowledgedFromPeer => Acknowledgement,
    RefusedAcknowledged => Acknowledgement,
    RunOneTooLong => Acknowledgement,
    /// The frame itself counts.
    RunBeforeEffect => Acknowledgement,
    /// Accepted ones past the next number, and none behind.
    RunOfMarksOnly => Acknowledgement,
    /// Which is 0 in 8 bits.
    RunUpTo256 => Acknowledgement,
    RunUpTo64 => Acknowledgement,
    RunFromNext => Acknowledgement,
    /// The run is right, and it is acknowledged from the number after the frame's on.
    RunAcknowledgedFromNext => Acknowledgement,
    RepeatAlone => Acknowledgement,
    /// No run is longer than one.
    EachAlone => Acknowledgement,

    // Lines.
    UpperRefused => Output,
    LowerRefused => Output,
    MixedRefused => Output,
    ReturnStripped => Output,
    BlanksStripped => Output,
    PrefixStripped => Output,
    LastHalfByteDropped => Output,
    BadReadAsZero => Output,
    HighBitIgnored => Output,
    LetterBitIgnored => Output,
    CutAtBadCharacter => Output,
    TwoBeforeFourteen => Output,
    OneBeforeFourteen => Output,
    LongLineCut => Output,
    EmptyIsNoMessages => Output,
    EmptySkipped => Output,
}

/// The numbers that are mistaken, and for what.
const MISTAKEN: [(Fault, u8, u8); 13] = [
    (Fault::OneAsTwo, 1, 2),
    (Fault::TwoAsOne, 2, 1),
    (Fault::ThreeAsFour, 3, 4),
    (Fault::FourAsFive, 4, 5),
    (Fault::FiveAsSix, 5, 6),
    (Fault::SixAsFive, 6, 5),
    (Fault::SevenAsEight, 7, 8),
    (Fault::EightAsNine, 8, 9),
    (Fault::NineAsTen, 9, 10),
    (Fault::TenAsNine, 10, 9),
    (Fault::ElevenAsTwelve, 11, 12),
    (Fault::TwelveAsEleven, 12, 11),
    (Fault::FourteenAsThirteen, 14, 13),
];

struct Message<'a> {
    transaction: u32,
    address: u32,
    value: u32,
    count: u16,
    data_address: u32,
    data: &'a [u8],
}

#[derive(Clone, Copy, PartialEq)]
struct Entry {
    count: u16,
    address: u32,
    value: u32,
    received: u16,
}

/// What a refused frame must leave as it was.
#[derive(Clone)]
struct State {
    next: u16,
    marks: BTreeSet<u16>,
    lowest: u32,
    closed: BTreeSet<u32>,
    open: BTreeMap<u32, Entry>,
    memory: Vec<u8>,
}

/// The program, with a fault or without.
pub struct Faulty {
    fault: Option<Fault>,
    state: State,
    accepted_any: bool,
}

fn refused(number: u8) -> Answer {
    Answer::Refused { number, place: 0 }
}

impl Faulty {
    /// With these numbers to come next; the program starts at 0 and 0.
    pub fn new(fault: Option<Fault>, next: u16, lowest: u32) -> Faulty {
        Faulty {
            fault,
            state: State {
                next,
                marks: BTreeSet::new(),
                lowest,
                closed: BTreeSet::new(),
                open: BTreeMap::new(),
                memory: vec![0; 4_096],
            },
            accepted_any: false,
        }
    }

    pub fn memory(&self) -> &[u8] {
        &self.state.memory
    }

    fn has(&self, fault: Fault) -> bool {
        self.fault == Some(fault)
    }

    /// The answer to a line, or nothing if the fault is to give none. Places are 0.
    pub fn line(&mut self, line: &[u8]) -> Option<Answer> {
        let answer = self.line_as_numbered(line);
        let mistaken = MISTAKEN
            .iter()
            .find(|(fault, number, _)| self.has(*fault) && answer == Some(refused(*number)));
        match mistaken {
            Some((_, _, number)) => Some(refused(*number)),
            None => answer,
        }
    }

    fn line_as_numbered(&mut self, line: &[u8]) -> Option<Answer> {
        let mut line = line.to_vec();
        match self.fault {
            Some(Fault::EmptySkipped) if line.is_empty() => return None,
            Some(Fault::EmptyIsNoMessages) if line.is_empty() => return Some(Answer::NoMessages),
            Some(Fault::ReturnStripped) if line.last() == Some(&b'\r') => {
                line.pop();
            }
            Some(Fault::BlanksStripped) => line = line.trim_ascii().to_vec(),
            Some(Fault::PrefixStripped) if line.starts_with(b"0x") => {
                line.drain(..2);
            }
            Some(Fault::LastHalfByteDropped) if line.len() % 2 == 1 => {
                line.pop();
            }
            Some(Fault::HighBitIgnored) => line.iter_mut().for_each(|byte| *byte &= 0x7f),
            Some(Fault::LetterBitIgnored) => line.iter_mut().for_each(|byte| *byte |= 0x20),
            Some(Fault::CutAtBadCharacter) => {
                let digits = line.iter().take_while(|byte| byte.is_ascii_hexdigit());
                let digits = digits.count();
                line.truncate(digits);
            }
            Some(Fault::TwoBeforeFourteen) if line.len() > 18_000 => return Some(refused(2)),
            Some(Fault::OneBeforeFourteen) if line.len() < 20 => return Some(refused(1)),
            Some(Fault::LongLineCut) => line.truncate(18_000),
            _ => {}
        }
        let upper = line.iter().any(u8::is_ascii_uppercase);
        let lower = line.iter().any(u8::is_ascii_lowercase);
        let case = match self.fault {
            Some(Fault::UpperRefused) => upper,
            Some(Fault::LowerRefused) => lower,
            Some(Fault::MixedRefused) => upper && lower,
            _ => false,
        };
        let value = |byte: u8| match char::from(byte).to_digit(16) {
            None if self.has(Fault::BadReadAsZero) => Some(0),
            digit => digit,
        };
        let digits: Option<Vec<u32>> = line.iter().map(|byte| value(*byte)).collect();
        match digits {
            Some(digits) if digits.len() % 2 == 0 && !case => {
                let frame: Vec<u8> = digits
                    .chunks(2)
                    .map(|pair| (16 * pair[0] + pair[1]) as u8)
                    .collect();
                Some(self.frame(&frame))
            }
            _ => Some(refused(14)),
        }
    }

    /// The answer to a frame, with place 0.
    pub fn frame(&mut self, frame: &[u8]) -> Answer {
        let answer = self.judge(frame);
        match (self.fault, answer) {
            (Some(Fault::RefusesAll), _) => refused(3),
            (Some(Fault::AgainToAll), Answer::Accepted { number, run, .. }) => {
                Answer::Again { number, run }
            }
            (
                _,
                Answer::Accepted {
                    number,
                    messages,
                    bytes,
                    completed,
                    run,
                },
            ) => Answer::Accepted {
                number,
                messages: messages + u64::from(self.has(Fault::InventsMessages) && messages > 40),
                bytes: bytes + u64::from(self.has(Fault::InventsBytes) && bytes > 1_000),
                completed: completed
                    + u64::from(self.has(Fault::InventsCompleted) && completed > 9),
                run,
            },
            _ => answer,
        }
    }

    fn judge(&mut self, frame: &[u8]) -> Answer {
        if frame.len() < 10 {
            return refused(1);
        }
        let two = |at: usize| u16::from_le_bytes([frame[at], frame[at + 1]]);
        let longest = match self.fault {
            Some(Fault::LongestOneLess) => 8_999,
            Some(Fault::LongestOneMore) => 9_001,
            _ => 9_000,
        };
        let long = frame.len() > longest;
        let ids = (two(0) != 1 && !self.has(Fault::ThreeWithoutDestination))
            || (two(2) != 2 && !self.has(Fault::ThreeWithoutSource));
        let flags = frame[9];
        let reserved = flags > 1;
        let number = two(4);
        let step = self.step(number);
        let again = self.is_behind_or_accepted(number);
        let ahead = step == 1 && !self.has(Fault::AheadIsAccepted);

        if ids && self.has(Fault::ThreeBeforeTwo) {
            return refused(3);
        }
        if long {
            return refused(2);
        }
        if reserved && self.has(Fault::FourBeforeThree) {
            return refused(4);
        }
        if ids {
            return refused(3);
        }
        if flags & 1 == 0 && self.has(Fault::NoMessagesBeforeFour) {
            return Answer::NoMessages;
        }
        let messages = self.read(frame);
        if self.has(Fault::FiveBeforeFour) && flags & 1 == 1 && messages.is_none() {
            return refused(5);
        }
        if reserved {
            return refused(4);
        }
        if self.has(Fault::FiveBeforeNoMessages) && frame.len() > 10 && messages.is_none() {
            return refused(5);
        }
        if ahead && self.has(Fault::SixBeforeNoMessages) {
            return refused(6);
        }
        if again && self.has(Fault::AgainBeforeNoMessages) {
            return self.again(number);
        }
        if flags & 1 == 0 || self.has(Fault::AckFieldsMatter) && frame[8] != 0 {
            if self.has(Fault::NoMessagesUsesNumber) && !again && !ahead {
                self.mark(number);
            }
            return Answer::NoMessages;
        }
        if ahead && self.has(Fault::SixBeforeFive) {
            return refused(6);
        }
        if again && self.has(Fault::AgainBeforeFive) {
            return self.again(number);
        }
        let whole = messages.is_some();
        let messages = match messages {
            Some(messages) => messages,
            None if self.has(Fault::MessagesBeforeFive) => self.read_front(frame),
            None => return refused(5),
        };
        let early = match self.fault {
            Some(Fault::MessagesBeforeSix) => ahead,
            Some(Fault::MessagesBeforeAgain) => again,
            _ => false,
        };
        let before = self.state.clone();
        if early {
            if let Err(refusal) = self.take_all(&messages) {
                self.state = before;
                return refused(refusal);
            }
            self.state = before.clone();
        }
        if again {
            return match self.fault {
                Some(Fault::BehindIsRefused) if step == 2 => refused(6),
                _ => self.again(number),
            };
        }
        if ahead {
            return refused(6);
        }
        if self.has(Fault::OnlyFirstAccepted) && self.accepted_any {
            return self.again(number);
        }
        match self.take_all(&messages) {
            Ok(_) if !whole => {
                self.state = before;
                refused(5)
            }
            Ok(completed) => {
                if self.has(Fault::OnlyFirstWritten) && self.accepted_any {
                    self.state.memory = before.memory;
                }
                self.accepted_any = true;
                let run_before = self.run(number, 255).max(1);
                self.mark(number);
                let run = match self.fault {
                    Some(Fault::RunBeforeEffect) => run_before,
                    _ => self.told_run(number),
                };
                let counted = |message: &&Message| {
                    !message.data.is_empty() || !self.has(Fault::EmptyMessagesNotCounted)
                };
                let mut bytes: usize = messages.iter().map(|message| message.data.len()).sum();
                if self.has(Fault::CompletionBytesCounted) {
                    bytes += 4 * completed as usize;
                }
                Answer::Accepted {
                    number,
                    messages: messages.iter().filter(counted).count() as u64,
                    bytes: bytes as u64,
                    completed,
                    run,
                }
            }
            Err(refusal) => {
                match self.fault {
                    Some(Fault::EffectsOfRefusedStay) => {}
                    Some(Fault::BytesOfRefusedStay) => {
                        let memory = std::mem::take(&mut self.state.memory);
                        self.state = State { memory, ..before };
                    }
                    _ => self.state = before,
                }
                if self.has(Fault::RefusedNumberMarked) {
                    self.mark(number);
                }
                refused(refusal)
            }
        }
    }

    fn again(&self, number: u16) -> Answer {
        let run = match self.fault {
            Some(Fault::RepeatAlone) => 1,
            _ => self.told_run(number),
        };
        Answer::Again { number, run }
    }

    /// How many numbers it says are acknowledged from this one on.
    fn told_run(&self, number: u16) -> u8 {
        let run = self.run(number, 255);
        match self.fault {
            Some(Fault::RunOneTooLong) => run.saturating_add(1),
            Some(Fault::RunOfMarksOnly) => {
                let marks = &self.state.marks;
                let mut run = 0;
                while marks.contains(&number.wrapping_add(run)) {
                    run += 1;
                }
                run.max(1) as u8
            }
            Some(Fault::RunUpTo256) => self.run(number, 256),
            Some(Fault::RunUpTo64) => self.run(number, 64),
            Some(Fault::RunFromNext) => self.run(number.wrapping_add(1), 255),
            Some(Fault::EachAlone) => 1,
            _ => run,
        }
    }

    fn run(&self, number: u16, most: u16) -> u8 {
        let mut run = 0;
        while run < most && self.is_behind_or_accepted(number.wrapping_add(run)) {
            run += 1;
        }
        run as u8
    }

    fn is_behind_or_accepted(&self, number: u16) -> bool {
        match self.step(number) {
            0 => self.state.marks.contains(&number),
            step => step == 2,
        }
    }

    /// 0 in the window, 1 ahead, 2 behind.
    fn step(&self, number: u16) -> u8 {
        let window = match self.fault {
            Some(Fault::Window63) => 63,
            Some(Fault::Window65) => 65,
            _ => 64,
        };
        let behind = match self.fault {
            Some(Fault::BehindFrom32767) => 32_767,
            Some(Fault::BehindFrom32769) => 32_769,
            _ => 32_768,
        };
        let distance = number.wrapping_sub(self.state.next);
        if self.has(Fault::FramesByLessThan) {
            return match number.checked_sub(self.state.next) {
                None => 2,
                Some(distance) => u8::from(distance >= 64),
            };
        }
        if distance < window {
            0
        } else if distance < behind {
            1
        } else {
            2
        }
    }

    fn mark(&mut self, number: u16) {
        let state = &mut self.state;
        match self.fault {
            Some(Fault::NumbersNotMarked) => {
                if number == state.next {
                    state.next = state.next.wrapping_add(1);
                }
            }
            Some(Fault::NextMovesToLast) => state.next = number.wrapping_add(1),
            _ => {
                state.marks.insert(number);
                while state.marks.remove(&state.next) {
                    state.next = state.next.wrapping_add(1);
                    if self.fault == Some(Fault::NextMovesByOne) {
                        break;
                    }
                }
            }
        }
    }

    /// The messages, if header and data of each are all there.
    fn read<'a>(&self, frame: &'a [u8]) -> Option<Vec<Message<'a>>> {
        let mut messages = Vec::new();
        let mut at = 10;
        loop {
            let another = self.read_one(frame, &mut at, &mut messages)?;
            if !another {
                return Some(messages);
            }
        }
    }

    /// The messages before the first that is not all there.
    fn read_front<'a>(&self, frame: &'a [u8]) -> Vec<Message<'a>> {
        let mut messages = Vec::new();
        let mut at = 10;
        while self.read_one(frame, &mut at, &mut messages) == Some(true) {}
        messages
    }

    fn read_one<'a>(
        &self,
        frame: &'a [u8],
        at: &mut usize,
        messages: &mut Vec<Message<'a>>,
    ) -> Option<bool> {
        let header = frame.get(*at..*at + 24)?;
        let two = |at: usize| u16::from_le_bytes([header[at], header[at + 1]]);
        let four = |at: usize| u32::from(two(at)) | u32::from(two(at + 2)) << 16;
        let start = *at + 24;
        let end = start + usize::from(two(20));
        messages.push(Message {
            transaction: four(0),
            address: four(4),
            value: four(8),
            count: two(12),
            data_address: four(16),
            data: frame.get(start..end)?,
        });
        let rest = if self.has(Fault::RoundedFromStart) {
            0
        } else {
            2
        };
        *at = end;
        while *at % 8 != rest {
            *at += 1;
        }
        Some(match self.fault {
            Some(Fault::TrailingOnly1) => header[23] == 1,
            _ => header[23] != 0,
        })
    }

    /// The number of transactions that became complete, or the refusal.
    fn take_all(&mut self, messages: &[Message]) -> Result<u64, u8> {
        let entry = self.state.clone();
        let mut completed = 0;
        let mut late = Vec::new();
        let mut last = None;
        for (index, message) in messages.iter().enumerate() {
            let judged = match self.fault {
                Some(Fault::JudgedAgainstEntry) => self.refusal(message, &entry),
                _ => self.refusal(message, &self.state),
            };
            if let Some(mut refusal) = judged {
                let closed_here = messages[..index]
                    .iter()
                    .any(|before| before.transaction == message.transaction);
                if refusal == 7 && closed_here && self.has(Fault::EightForClosedInFrame) {
                    refusal = 8;
                }
                if !self.has(Fault::LastRefusalGiven) {
                    return Err(refusal);
                }
                last = Some(refusal);
                continue;
            }
            let repeated = messages[..index]
                .iter()
                .any(|before| before.transaction == message.transaction);
            if self.take(message, repeated, &mut late) {
                completed += 1;
            }
        }
        for (address, value) in late {
            self.write(address, &value);
        }
        last.map_or(Ok(completed), Err)
    }

    fn refusal(&self, message: &Message, state: &State) -> Option<u8> {
        let memory = state.memory.len() as u64;
        let transaction = message.transaction;
        let window = match self.fault {
            Some(Fault::TransactionWindow31) => 31,
            Some(Fault::TransactionWindow33) => 33,
            _ => 32,
        };
        let outside = match self.fault {
            Some(Fault::TransactionsByLessThan) => {
                transaction < state.lowest
                    || u64::from(transaction) >= u64::from(state.lowest) + window
            }
            Some(Fault::TransactionsIn31Bits) => {
                let distance = transaction.wrapping_sub(state.lowest) << 1 >> 1;
                u64::from(distance) >= window
            }
            _ => u64::from(transaction.wrapping_sub(state.lowest)) >= window,
        };
        let closed = state.closed.contains(&transaction);
        let differs = state.open.get(&transaction).is_some_and(|open| {
            let count = open.count != message.count && !self.has(Fault::NineWithoutCount);
            let address = open.address != message.address && !self.has(Fault::NineWithoutAddress);
            let value = open.value != message.value && !self.has(Fault::NineWithoutValue);
            let skip = self.has(Fault::NineForOpenOnlyWithData) && message.data.is_empty();
            (count || address || value) && !skip
        });
        let bare = message.count == 0 && !message.data.is_empty();
        let sum = |address: u32, length: u32, narrow: Fault| {
            if self.has(narrow) {
                u64::from(address.wrapping_add(length))
            } else {
                u64::from(address) + u64::from(length)
            }
        };
        let length = message.data.len() as u32;
        let data_end = sum(message.data_address, length, Fault::ElevenIn32Bits);
        let data = match self.fault {
            Some(Fault::ElevenLeftOut) => false,
            Some(Fault::ElevenNotForEmpty) => length > 0 && data_end > memory,
            Some(Fault::ElevenOneLess) => data_end >= memory,
            Some(Fault::ElevenOneMore) => data_end > memory + 1,
            _ => data_end > memory,
        };
        let completion_end = sum(message.address, 4, Fault::TwelveIn32Bits);
        let received = state.open.get(&transaction).map_or(0, |open| open.received);
        let completing = received + 1 >= message.count;
        let completion = match self.fault {
            Some(Fault::TwelveLeftOut) => false,
            Some(Fault::TwelveOnCompletingOnly) => completing && completion_end > memory,
            Some(Fault::TwelveOneLess) => completion_end >= memory,
            Some(Fault::TwelveOneMore) => completion_end > memory + 1,
            _ => completion_end > memory,
        };

        let bare = bare && !self.has(Fault::TenLeftOut);
        let seven = match self.fault {
            Some(Fault::EightForSevenBehind)
                if state.lowest.wrapping_sub(transaction) <= 1 << 31 =>
            {
                8
            }
            _ => 7,
        };
        let eight = if self.has(Fault::SevenForEight) { 7 } else { 8 };
        let mut order = [
            (outside, seven),
            (closed, eight),
            (differs, 9),
            (bare, 10),
            (data, 11),
            (completion, 12),
        ];
        match self.fault {
            Some(Fault::TenBeforeSeven) => order[..4].rotate_right(1),
            Some(Fault::TenBeforeEight) => order[1..4].rotate_right(1),
            Some(Fault::TenBeforeNine) => order.swap(2, 3),
            Some(Fault::ElevenBeforeNine) => order[2..5].rotate_right(1),
            Some(Fault::ElevenBeforeTen) => order.swap(3, 4),
            Some(Fault::TwelveBeforeEleven) => order.swap(4, 5),
            _ => {}
        }
        let met = order.iter().find(|(met, _)| *met);
        met.map(|(_, refusal)| *refusal)
    }

    /// Lets a message take effect; whether its transaction is now complete.
    fn take(&mut self, message: &Message, repeated: bool, late: &mut Vec<(u32, [u8; 4])>) -> bool {
        let transaction = message.transaction;
        let value = match self.fault {
            Some(Fault::CompletionBigEndian) => message.value.to_be_bytes(),
            _ => message.value.to_le_bytes(),
        };
        let known = self.state.open.get(&transaction).copied();
        let mut entry = known.unwrap_or(Entry {
            count: message.count,
            address: message.address,
            value: message.value,
            received: 0,
        });
        if !(repeated && self.has(Fault::CountedOncePerFrame)) {
            entry.received = entry.received.saturating_add(1);
        }
        if self.has(Fault::ReceivedIn8Bits) {
            entry.received %= 256;
        }
        let complete = match self.fault {
            Some(Fault::BareStaysOpen) => entry.received == entry.count,
            Some(Fault::FirstMessageCompletes) => true,
            Some(Fault::OneMessageTooMany) => entry.count == 0 || entry.received > entry.count,
            _ => entry.count == 0 || entry.received == entry.count,
        };
        if complete && self.has(Fault::CompletionBeforeData) {
            self.write(message.address, &value);
        }
        let short = usize::from(self.has(Fault::DataOneByteShort) && !message.data.is_empty());
        self.write(message.data_address, &message.data[short..]);
        if !complete {
            self.state.open.insert(transaction, entry);
            return false;
        }
        match self.fault {
            Some(Fault::CompletionBeforeData) => {}
            Some(Fault::CompletionAfterFrame) => late.push((message.address, value)),
            _ => self.write(message.address, &value),
        }
        let state = &mut self.state;
        state.open.remove(&transaction);
        if self.fault != Some(Fault::ClosedForgotten) || transaction == state.lowest {
            state.closed.insert(transaction);
        }
        while state.closed.remove(&state.lowest) {
            state.lowest = state.lowest.wrapping_add(1);
            if self.fault == Some(Fault::LowestMovesByOne) {
                break;
            }
        }
        true
    }

    /// A host that lets bad addresses through must not stop the test.
    fn write(&mut self, address: u32, bytes: &[u8]) {
        for (at, byte) in (u64::from(address)..).zip(bytes) {
            if let Some(place) = self.state.memory.get_mut(at as usize) {
                *place = *byte;
            }
        }
    }

    /// What is sent to the card for an answer, by a host that is at 0.
    pub fn acknowledgement(&self, answer: Answer) -> Option<[u8; 10]> {
        let (start, run) = match answer {
            Answer::Again { .. } if self.has(Fault::RepeatNotAcknowledged) => (0, 0),
            Answer::Accepted { number, run, .. } | Answer::Again { number, run } => (number, run),
            Answer::NoMessages => (0, 0),
            Answer::Refused { .. } => (0, u8::from(self.has(Fault::RefusedAcknowledged))),
        };
        let start = match self.fault {
            Some(Fault::NextAcknowledged) => self.state.next,
            Some(Fault::RunAcknowledgedFromNext) => start.wrapping_add(1),
            _ => start,
        };
        let [low, high] = start.to_le_bytes();
        let ids = match self.fault {
            Some(Fault::AcknowledgedFromPeer) => [1, 0, 2, 0],
            _ => [2, 0, 1, 0],
        };
        (run > 0).then_some([ids[0], ids[1], ids[2], ids[3], 0, 0, low, high, run, 0])
    }
}
