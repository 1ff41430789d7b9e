//! Why something was refused: the numbers by name, and their classes.

use crate::raw;
use std::error::Error;
use std::fmt;

/// The number of a refusal, never 0.
#[derive(Clone, Copy, Debug, PartialEq, Eq, PartialOrd, Ord, Hash)]
pub struct Refusal(u32);

macro_rules! refusals {
    ($($(#[$doc:meta])* $name:ident = $number:literal,)*) => {
        impl Refusal {
            $($(#[$doc])* pub const $name: Refusal = Refusal($number);)*

            /// All that have a name, by number.
            pub const ALL: &[Refusal] = &[$(Refusal::$name,)*];

            /// The name of the constant, if there is one with this number.
            pub fn name(self) -> Option<&'static str> {
                match self.0 {
                    $($number => Some(stringify!($name)),)*
                    _ => None,
                }
            }
        }
    };
}

refusals! {
    /// No room for the 10 bytes of a frame header.
    FRAME_TOO_SHORT = 1,
    /// More than 9,000 bytes.
    FRAME_TOO_LONG = 2,
    /// For another endpoint, or not from the peer.
    WRONG_ID = 3,
    /// A flag bit without a meaning is set.
    RESERVED_FLAG = 4,
    /// A message header or its data passes the frame's end.
    PAST_FRAME_END = 5,
    /// The frame number is too far ahead of the next one.
    FRAME_AHEAD = 6,
    /// The transaction is not in the window.
    TRANSACTION_OUTSIDE_WINDOW = 7,
    /// The transaction is in the window and complete.
    TRANSACTION_CLOSED = 8,
    /// Count, completion address or value differs from the open transaction's.
    TRANSACTION_DIFFERS = 9,
    /// Data, though no data messages are counted.
    BARE_WITH_DATA = 10,
    /// The data would pass the end of memory.
    DATA_OUTSIDE_MEMORY = 11,
    /// The completion would pass the end of memory.
    COMPLETION_OUTSIDE_MEMORY = 12,
    /// An end was to be opened with ID 0, or a host stored that has one.
    ID_ZERO = 13,
    /// A replay line is not whole bytes in hexadecimal.
    BAD_LINE = 14,
    /// No host is stored as this text.
    BAD_TEXT = 15,
    /// The replay was closed before.
    REPLAY_CLOSED = 17,
    /// The buffer is shorter than the text.
    BUFFER_SHORT = 19,
    /// The window of 32 transactions is used up.
    TRANSACTION_WINDOW_FULL = 20,
    /// 64 sealed frames are not released.
    FRAME_WINDOW_FULL = 21,
    /// The message would end past the frame limit.
    FRAME_FULL = 22,
    /// The transaction was never opened, or has all its messages.
    NO_MESSAGE_LEFT = 23,
    /// The frame being built is empty.
    NOTHING_TO_SEAL = 24,
    /// The frame is not held, or there is nothing to choose.
    NOT_HELD = 25,
    /// The frame limit is not 34 to 9,000, or the slots are not 64 times as long.
    BAD_LIMIT_OR_SLOTS = 26,
    /// Data for the message of a transaction that takes none.
    DATA_FOR_BARE = 27,
    /// 16 cards are registered.
    TABLE_FULL = 28,
    /// The region has a byte of another card's.
    REGION_OVERLAPS = 29,
    /// A card with this ID is registered.
    SOURCE_REGISTERED = 30,
    /// The region is empty, or ends past the memory.
    REGION_OUTSIDE_MEMORY = 31,
    /// The block's size is no multiple of 8.
    NOT_WHOLE_READINGS = 40,
    /// A reading's subscriber is not below 1,024.
    UNKNOWN_SUBSCRIBER = 41,
    /// A total, or the sum of all, would pass 64 bits.
    PAST_64_BITS = 42,
}

impl Refusal {
    /// The refusal of this number; 0 is none.
    pub fn from_number(number: u32) -> Option<Refusal> {
        (number != 0).then_some(Refusal(number))
    }

    /// The number that the library gives.
    pub fn number(self) -> u32 {
        self.0
    }

    /// What it is about.
    pub fn class(self) -> Class {
        refusal_class(self.0)
    }

    /// The result of a call that gives this number, where 0 is success.
    pub(crate) fn check(number: u32) -> Result<(), Refusal> {
        match Refusal::from_number(number) {
            None => Ok(()),
            Some(refusal) => Err(refusal),
        }
    }
}

impl fmt::Display for Refusal {
    fn fmt(&self, f: &mut fmt::Formatter) -> fmt::Result {
        match self.name() {
            Some(name) => f.write_str(name),
            None => write!(f, "refusal {}", self.0),
        }
    }
}

impl Error for Refusal {}

/// What a refusal is about; the discriminants are the numbers that the library gives.
#[derive(Clone, Copy, Debug, PartialEq, Eq, Hash)]
#[repr(u32)]
pub enum Class {
    /// No refusal, or 15, 17, 19, 28 to 31 or 40 to 42, which have no class.
    None = 0,
    /// The frame as a whole: 1 to 6.
    Wire = 1,
    /// One message: 7 to 12.
    Message = 2,
    /// What the caller asked for: 13 and 14.
    Caller = 3,
    /// A step of the card: 20 to 27.
    Card = 4,
}

/// The class of any number at all.
pub fn refusal_class(number: u32) -> Class {
    match raw::refusal_class(number) {
        1 => Class::Wire,
        2 => Class::Message,
        3 => Class::Caller,
        4 => Class::Card,
        _ => Class::None,
    }
}
