//! A reader of layouts into which one fault at a time can be put, to show that the
//! inputs would uncover it. Without a fault it has to agree with the independent
//! reader, or it would be told apart for a reason of its own.

use super::Answers;

macro_rules! faults {
    ($($(#[$doc:meta])* $name:ident,)*) => {
        /// What a reader may get wrong.
        #[derive(Clone, Copy, Debug, PartialEq, Eq)]
        pub enum Fault {
            $($(#[$doc])* $name,)*
        }

        impl Fault {
            pub const ALL: &[Fault] = &[$(Fault::$name,)*];
        }
    };
}

faults! {
    /// 9 bytes are taken for a frame header.
    NineAreEnough,
    /// A frame that is only a header is refused as too short.
    TenAreTooFew,
    /// 9,000 bytes are refused.
    LongestOneLess,
    /// 9,001 bytes are let through.
    LongestOneMore,
    /// The frame's length is taken in 16 bits.
    FrameLengthIn16Bits,
    /// Flags are judged before the frame's length.
    FlagsBeforeLong,
    /// Messages are judged before the flags.
    MessagesBeforeFlags,
    /// An ID of 0 is refused.
    IdZeroRefused,
    /// A reserved flag bit is let through; one fault for each of them.
    ReservedBit1,
    ReservedBit2,
    ReservedBit3,
    ReservedBit4,
    ReservedBit5,
    ReservedBit6,
    ReservedBit7,
    /// Bytes behind a clear flag are read as messages.
    ClearFlagIsRead,
    /// A set flag without room for a message is no messages.
    SetFlagWithoutMessage,
    /// The header of a message without data may pass the end by a byte.
    HeaderOneByteOver,
    /// Data may pass the end by a byte.
    DataOneByteOver,
    /// Data may not reach the end.
    DataOneByteUnder,
    /// The end of the data is not looked at.
    DataEndIgnored,
    /// The sum of offset and data length is taken in 16 bits.
    DataEndIn16Bits,
    /// The data length is read the wrong way round.
    LengthBigEndian,
    /// Only the low byte of the data length is read.
    LengthIn8Bits,
    /// The data length is read one field early.
    LengthTwoBytesEarly,
    /// Only a trailing byte of 1 means another message.
    TrailingOnly1,
    /// A trailing byte of 255 means the last message.
    Trailing255IsLast,
    /// The lowest bit of the trailing byte means another message.
    TrailingLowestBit,
    /// The trailing byte is read one byte early.
    TrailingOneByteEarly,
    /// Messages are read as long as there are bytes.
    TrailingIgnored,
    /// A message that is announced and is not there is taken for none.
    MissingMessageIgnored,
    /// The next header is looked for at multiples of 8 from the frame's start.
    RoundedFromStart,
    /// The next header is looked for straight behind the data.
    NotRounded,
    /// The next header is looked for at multiples of 4.
    RoundedTo4,
    /// A gap is left even where the data ends at a permitted offset.
    AlwaysAGap,
    /// The gap's end is asked for behind the last message as well.
    LastIsPadded,
    /// A gap that is not zero is refused.
    GapMustBeZero,
    /// Unused fields that are not zero are refused.
    UnusedMustBeZero,
    /// Bytes behind the last message are refused.
    JunkBehindRefused,
    /// Data bytes are counted with the message headers.
    BytesWithHeaders,
    /// Data bytes are counted with the gaps.
    BytesWithGaps,
    /// Messages without data are not counted.
    EmptyNotCounted,
    /// Messages are counted in 8 bits.
    MessagesIn8Bits,
    /// Messages and bytes read before a refusal are given all the same.
    CountsThoughRefused,
    /// Header fields are given though the layout is refused.
    FieldsThoughRefused,
    /// Destination and source are mixed up.
    IdsSwapped,
    /// The frame number is read the wrong way round.
    NumberBigEndian,
    /// ACKStart is given as 0 if ACKCount is.
    StartHiddenWithoutCount,
    /// ACKCount and flags are mixed up.
    CountAndFlagsSwapped,
}

/// What the nine calls would answer for this frame with this fault in them.
pub fn answers(frame: &[u8], fault: Option<Fault>) -> Answers {
    let mut reader = Reader {
        frame,
        fault,
        messages: 0,
        data_bytes: 0,
    };
    let refusal = reader.walk().err().unwrap_or(0);
    let mut answers = Answers {
        refusal,
        ..Answers::default()
    };
    if refusal == 0 || reader.has(Fault::CountsThoughRefused) {
        answers.messages = reader.messages;
        answers.data_bytes = reader.data_bytes;
    }
    if refusal == 0 || reader.has(Fault::FieldsThoughRefused) {
        answers.destination = reader.two_bytes(0);
        answers.source = reader.two_bytes(2);
        answers.number = reader.two_bytes(4);
        answers.ack_start = reader.two_bytes(6);
        answers.ack_count = reader.byte(8);
        answers.flags = reader.byte(9);
    }
    match fault {
        Some(Fault::MessagesIn8Bits) => answers.messages %= 256,
        Some(Fault::IdsSwapped) => {
            std::mem::swap(&mut answers.destination, &mut answers.source);
        }
        Some(Fault::NumberBigEndian) => {
            answers.number = answers.number % 256 * 256 + answers.number / 256;
        }
        Some(Fault::StartHiddenWithoutCount) if answers.ack_count == 0 => {
            answers.ack_start = 0;
        }
        Some(Fault::CountAndFlagsSwapped) => {
            std::mem::swap(&mut answers.ack_count, &mut answers.flags);
        }
        _ => {}
    }
    answers
}

struct Reader<'a> {
    frame: &'a [u8],
    fault: Option<Fault>,
    messages: u32,
    data_bytes: u32,
}

impl Reader<'_> {
    fn has(&self, fault: Fault) -> bool {
        self.fault == Some(fault)
    }

    /// A faulty reader may ask for bytes that are not there; it finds 0.
    fn byte(&self, at: usize) -> u32 {
        self.frame.get(at).copied().unwrap_or(0).into()
    }

    fn two_bytes(&self, at: usize) -> u32 {
        self.byte(at) + 256 * self.byte(at + 1)
    }

    fn walk(&mut self) -> Result<(), u32> {
        let length = match self.fault {
            Some(Fault::FrameLengthIn16Bits) => self.frame.len() % 65_536,
            _ => self.frame.len(),
        };
        let shortest = match self.fault {
            Some(Fault::NineAreEnough) => 9,
            Some(Fault::TenAreTooFew) => 11,
            _ => 10,
        };
        let longest = match self.fault {
            Some(Fault::LongestOneLess) => 8_999,
            Some(Fault::LongestOneMore) => 9_001,
            _ => 9_000,
        };
        let permitted = match self.fault {
            Some(Fault::ReservedBit1) => 0b0000_0011,
            Some(Fault::ReservedBit2) => 0b0000_0101,
            Some(Fault::ReservedBit3) => 0b0000_1001,
            Some(Fault::ReservedBit4) => 0b0001_0001,
            Some(Fault::ReservedBit5) => 0b0010_0001,
            Some(Fault::ReservedBit6) => 0b0100_0001,
            Some(Fault::ReservedBit7) => 0b1000_0001,
            _ => 0b0000_0001,
        };
        let flags = self.byte(9);
        let long = length > longest;
        let reserved = flags & !permitted != 0;

        if length < shortest {
            return Err(1);
        }
        if reserved && self.has(Fault::FlagsBeforeLong) {
            return Err(4);
        }
        if long {
            return Err(2);
        }
        if self.has(Fault::IdZeroRefused) && (self.two_bytes(0) == 0 || self.two_bytes(2) == 0) {
            return Err(3);
        }
        if reserved && !self.has(Fault::MessagesBeforeFlags) {
            return Err(4);
        }
        let read = flags & 1 == 1 || (self.has(Fault::ClearFlagIsRead) && length > 10);
        if read && !(self.has(Fault::SetFlagWithoutMessage) && length == 10) {
            self.walk_messages(length)?;
        }
        if reserved { Err(4) } else { Ok(()) }
    }

    fn walk_messages(&mut self, length: usize) -> Result<(), u32> {
        let mut at = 10;
        // No frame has so many messages; a faulty reader may go in circles.
        for _ in 0..1_000 {
            let data_start = at + 24;
            if data_start > length + usize::from(self.has(Fault::HeaderOneByteOver)) {
                return Err(5);
            }
            let data = match self.fault {
                Some(Fault::LengthBigEndian) => 256 * self.byte(at + 20) + self.byte(at + 21),
                Some(Fault::LengthIn8Bits) => self.byte(at + 20),
                Some(Fault::LengthTwoBytesEarly) => self.two_bytes(at + 18),
                _ => self.two_bytes(at + 20),
            };
            let data_end = match self.fault {
                Some(Fault::DataEndIn16Bits) => (data_start + data as usize) % 65_536,
                _ => data_start + data as usize,
            };
            let too_far = match self.fault {
                Some(Fault::DataOneByteOver) => data_end > length + 1,
                Some(Fault::DataOneByteUnder) => data_end >= length,
                Some(Fault::DataEndIgnored) => false,
                Some(Fault::HeaderOneByteOver) => data > 0 && data_end > length,
                _ => data_end > length,
            };
            if too_far {
                return Err(5);
            }
            let unused = self.two_bytes(at + 14) + self.byte(at + 22);
            if self.has(Fault::UnusedMustBeZero) && unused != 0 {
                return Err(5);
            }
            self.messages += u32::from(data > 0 || !self.has(Fault::EmptyNotCounted));
            self.data_bytes += data;
            if self.has(Fault::BytesWithHeaders) {
                self.data_bytes += 24;
            }

            let trailing = self.byte(at + 23);
            let another = match self.fault {
                Some(Fault::TrailingOnly1) => trailing == 1,
                Some(Fault::Trailing255IsLast) => trailing != 0 && trailing != 255,
                Some(Fault::TrailingLowestBit) => trailing % 2 == 1,
                Some(Fault::TrailingOneByteEarly) => self.byte(at + 22) != 0,
                Some(Fault::TrailingIgnored) => data_end < length,
                _ => trailing != 0,
            };
            let mut next = data_end + usize::from(self.has(Fault::AlwaysAGap));
            let (multiple, rest) = match self.fault {
                Some(Fault::RoundedFromStart) => (8, 0),
                Some(Fault::NotRounded) => (1, 0),
                Some(Fault::RoundedTo4) => (4, 2),
                _ => (8, 2),
            };
            while next % multiple != rest {
                next += 1;
            }
            if !another {
                let padded = self.has(Fault::LastIsPadded) && next > length;
                let junk = self.has(Fault::JunkBehindRefused) && data_end < length;
                return if padded || junk { Err(5) } else { Ok(()) };
            }
            if self.has(Fault::MissingMessageIgnored) && next + 24 > length {
                return Ok(());
            }
            if self.has(Fault::GapMustBeZero) && (data_end..next).any(|at| self.byte(at) != 0) {
                return Err(5);
            }
            if self.has(Fault::BytesWithGaps) {
                self.data_bytes += (next - data_end) as u32;
            }
            at = next;
        }
        Ok(())
    }
}
