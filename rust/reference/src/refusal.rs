//! The refusal numbers by name, and the class of a number. The numbers are part
//! of the interface: they go out to callers and into the replay's lines.

use std::ops::RangeInclusive;

/// The frame has no room for a frame header.
pub const FRAME_SHORT: u8 = 1;
/// The frame is longer than any frame may be.
pub const FRAME_LONG: u8 = 2;
/// The frame is for another endpoint or from another one than the peer; at a table, from
/// one that is not registered, as also a removal may be.
pub const WRONG_ID: u8 = 3;
/// One of the seven flag bits without a meaning is set.
pub const RESERVED_FLAG: u8 = 4;
/// A message header or the data behind it does not fit in the frame.
pub const MESSAGE_CUT: u8 = 5;
/// The frame number is too far ahead of the next one to be accepted yet.
pub const FRAME_AHEAD: u8 = 6;

/// The transaction number is not in the window.
pub const TRANSACTION_OUTSIDE: u8 = 7;
/// The transaction is in the window and over already.
pub const TRANSACTION_CLOSED: u8 = 8;
/// The message contradicts what the transaction's first message said.
pub const TRANSACTION_DIFFERS: u8 = 9;
/// The message of a transaction without data messages carries data.
pub const BARE_WITH_DATA: u8 = 10;
/// The data would be written past the end of memory.
pub const DATA_OUTSIDE: u8 = 11;
/// The completion would be written past the end of memory.
pub const COMPLETION_OUTSIDE: u8 = 12;

/// An end cannot be opened, nor a pair be stored (R6), nor a card be registered, with an
/// ID of 0.
pub const ID_ZERO: u8 = 13;
/// The line is not a whole number of bytes in hexadecimal.
pub const BAD_LINE: u8 = 14;

/// No pair is stored as this text (R7).
pub const BAD_TEXT: u8 = 15;
/// The buffer has no room for the text (R6).
pub const BUFFER_SHORT: u8 = 19;

/// The card's window of transactions is used up.
pub const TRANSACTIONS_FULL: u8 = 20;
/// Every slot holds a sealed frame that is not released.
pub const SLOTS_FULL: u8 = 21;
/// The message does not fit in what is left of the frame being built.
pub const FRAME_FULL: u8 = 22;
/// The transaction does not exist or wants no further message.
pub const TRANSACTION_DONE: u8 = 23;
/// The frame being built holds no message.
pub const NOTHING_TO_SEAL: u8 = 24;
/// There is no such held frame, or nothing at all that could go out.
pub const NOTHING_TO_SHOW: u8 = 25;
/// The frame limit or the size of the slot buffer is not a permitted one.
pub const BAD_LIMIT: u8 = 26;
/// Data was given for the message of a transaction without data messages.
pub const DATA_FOR_BARE: u8 = 27;

/// The table has sixteen cards already.
pub const TABLE_FULL: u8 = 28;
/// The region has a byte in common with another card's.
pub const REGION_OVERLAPS: u8 = 29;
/// The source is registered already.
pub const REGISTERED: u8 = 30;
/// The region has no bytes or does not lie in memory, or the memory that came with a frame
/// ends before its source's region does.
pub const REGION_OUTSIDE: u8 = 31;

/// The block's size is no multiple of a reading's.
pub const BLOCK_SIZE: u8 = 40;
/// No subscriber has the number.
pub const SUBSCRIBER_UNKNOWN: u8 = 41;
/// A total, or the sum of all totals, would take more than 64 bits.
pub const TOTAL_OVERFLOW: u8 = 42;

/// What a refusal is about. The discriminants are the numbers that C sees.
#[derive(Clone, Copy, Debug, PartialEq, Eq, Hash)]
#[repr(u32)]
pub enum Class {
    /// No refusal, or one that the rules give no class.
    None = 0,
    /// The frame as a whole.
    Wire = 1,
    /// One message of a frame.
    Message = 2,
    /// What the caller of a program or of an opening asked for.
    Caller = 3,
    /// A step of the card.
    Card = 4,
}

/// A table, so that a range can be read off beside its class.
const CLASSES: [(RangeInclusive<u32>, Class); 4] = [
    (1..=6, Class::Wire),
    (7..=12, Class::Message),
    (13..=14, Class::Caller),
    (20..=27, Class::Card),
];

/// The class of any number at all (O10).
pub fn class(number: u32) -> Class {
    CLASSES
        .iter()
        .find(|(numbers, _)| numbers.contains(&number))
        .map_or(Class::None, |(_, class)| *class)
}

#[cfg(test)]
mod tests {
    use super::*;

    #[test]
    fn every_named_refusal_has_its_class() {
        let named = [
            (
                Class::Wire,
                vec![
                    FRAME_SHORT,
                    FRAME_LONG,
                    WRONG_ID,
                    RESERVED_FLAG,
                    MESSAGE_CUT,
                    FRAME_AHEAD,
                ],
            ),
            (
                Class::Message,
                vec![
                    TRANSACTION_OUTSIDE,
                    TRANSACTION_CLOSED,
                    TRANSACTION_DIFFERS,
                    BARE_WITH_DATA,
                    DATA_OUTSIDE,
                    COMPLETION_OUTSIDE,
                ],
            ),
            (Class::Caller, vec![ID_ZERO, BAD_LINE]),
            (
                Class::Card,
                vec![
                    TRANSACTIONS_FULL,
                    SLOTS_FULL,
                    FRAME_FULL,
                    TRANSACTION_DONE,
                    NOTHING_TO_SEAL,
                    NOTHING_TO_SHOW,
                    BAD_LIMIT,
                    DATA_FOR_BARE,
                ],
            ),
        ];
        let mut seen = Vec::new();
        for (expected, numbers) in named {
            for number in numbers {
                assert_eq!(class(number.into()), expected, "number {number}");
                seen.push(u32::from(number));
            }
        }
        // The names cover every number that has a class, each once.
        let classed: Vec<u32> = (0..1_000).filter(|n| class(*n) != Class::None).collect();
        assert_eq!(seen, classed);
    }

    #[test]
    fn both_sides_of_each_range() {
        let edges = [
            (0, Class::None),
            (1, Class::Wire),
            (6, Class::Wire),
            (7, Class::Message),
            (12, Class::Message),
            (13, Class::Caller),
            (14, Class::Caller),
            (15, Class::None),
            (19, Class::None),
            (20, Class::Card),
            (27, Class::Card),
            (28, Class::None),
            (31, Class::None),
            (BLOCK_SIZE.into(), Class::None),
            (SUBSCRIBER_UNKNOWN.into(), Class::None),
            (TOTAL_OVERFLOW.into(), Class::None),
            (255, Class::None),
            // Numbers whose low byte or low half is that of a refusal.
            (256 + 1, Class::None),
            (65_536 + 20, Class::None),
            (u32::MAX, Class::None),
        ];
        for (number, expected) in edges {
            assert_eq!(class(number), expected, "number {number}");
        }
    }

    #[test]
    fn classes_have_the_numbers_that_c_sees() {
        let classes = [
            Class::None,
            Class::Wire,
            Class::Message,
            Class::Caller,
            Class::Card,
        ];
        assert_eq!(classes.map(|class| class as u32), [0, 1, 2, 3, 4]);
    }
}
