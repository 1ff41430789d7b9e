//! The steps that cards are timed on. Every result is handed on, to be compared before
//! anything is timed and to be summed up while it is. What a call is given is kept from the
//! compiler, which could otherwise make the plain card for just these arguments.

use crate::ends::CardEnd;
use std::hint::black_box;

/// The frame limit of the cards.
pub const LIMIT: usize = 1_500;
/// Bytes of their slots.
pub const SLOTS: usize = 64 * LIMIT;
/// Frames that are under way at once, where there are several.
const UNDER_WAY: u16 = 32;

/// What is done with a card in one turn.
#[derive(Clone, Copy, Debug, PartialEq, Eq)]
pub enum Steps {
    /// A message of that many bytes: open, add, seal, choose, read its acknowledgement.
    Life(usize),
    /// The same with a frame of so many messages, of 8 bytes each, of one transaction.
    ManyMessages(u16),
    /// 32 frames are built and shown, and then acknowledged by one range.
    InRuns,
    /// The same, with an acknowledgement for each, out of order.
    OutOfOrder,
    /// Frames that are held are shown again.
    ShowAgain,
}

/// What cards are timed on, by name.
pub const STEPS: [(&str, Steps); 6] = [
    ("a message of 1,466 bytes, its life", Steps::Life(1_466)),
    ("a message of 4 bytes, its life", Steps::Life(4)),
    (
        "46 messages of 8 bytes, a frame's life",
        Steps::ManyMessages(46),
    ),
    ("32 frames, acknowledged at once", Steps::InRuns),
    ("32 frames, acknowledged out of order", Steps::OutOfOrder),
    ("a held frame shown again", Steps::ShowAgain),
];

/// Lets the card at 2 read an acknowledgement from its peer at 1.
#[inline(always)]
fn acknowledge<C: CardEnd>(card: &mut C, start: u16, count: u8, see: &mut impl FnMut(u64)) {
    let [low, high] = start.to_le_bytes();
    let frame = [2, 0, 1, 0, 0, 0, low, high, count, 0];
    see(card.read(black_box(&frame[..])).into());
}

impl Steps {
    /// How many times the steps are done in one turn, of a frame or of a showing each.
    pub fn times(self) -> usize {
        match self {
            Steps::Life(_) => 4_096,
            Steps::ManyMessages(_) => 512,
            Steps::InRuns | Steps::OutOfOrder => 64 * usize::from(UNDER_WAY),
            Steps::ShowAgain => 512 * usize::from(UNDER_WAY),
        }
    }

    /// Readies a fresh card for the first turn.
    pub fn begin<C: CardEnd>(self, slots: &mut [u8]) -> C {
        let mut card = C::fresh(LIMIT, slots);
        if self == Steps::ShowAgain {
            for _ in 0..UNDER_WAY {
                one_frame(&mut card, slots, 1, &[7; 100], &mut |_| ());
            }
        }
        card
    }

    /// One turn, with every result handed to `see`.
    pub fn turn<C: CardEnd>(
        self,
        card: &mut C,
        slots: &mut [u8],
        data: &[u8],
        see: &mut impl FnMut(u64),
    ) {
        match self {
            Steps::Life(length) => {
                for _ in 0..self.times() {
                    life(card, slots, 1, &data[..length], see);
                }
            }
            Steps::ManyMessages(messages) => {
                for _ in 0..self.times() {
                    life(card, slots, messages, &data[..8], see);
                }
            }
            Steps::InRuns | Steps::OutOfOrder => {
                for _ in 0..self.times() / usize::from(UNDER_WAY) {
                    under_way(card, slots, &data[..4], self == Steps::InRuns, see);
                }
            }
            Steps::ShowAgain => {
                for index in 0..self.times() {
                    show(card, slots, index as u16 % UNDER_WAY, see);
                }
            }
        }
    }
}

/// A frame of one transaction's messages is built; gives its number.
#[inline(always)]
fn one_frame<C: CardEnd>(
    card: &mut C,
    slots: &mut [u8],
    messages: u16,
    data: &[u8],
    see: &mut impl FnMut(u64),
) -> u16 {
    let (mut transaction, mut number) = (0, 0);
    let (messages, address) = black_box((messages, 64));
    see(card
        .open_transaction(messages, 64, 7, &mut transaction)
        .into());
    for _ in 0..messages {
        see(card.add(slots, transaction, address, data).into());
    }
    see(card.seal(slots, &mut number).into());
    see(number.into());
    number
}

#[inline(always)]
fn life<C: CardEnd>(
    card: &mut C,
    slots: &mut [u8],
    messages: u16,
    data: &[u8],
    see: &mut impl FnMut(u64),
) {
    let number = one_frame(card, slots, messages, data, see);
    let mut part = [0; 3];
    see(card.choose(slots, black_box(&[][..]), &mut part).into());
    for number in part {
        see(number);
    }
    acknowledge(card, number, 1, see);
}

#[inline(always)]
fn show<C: CardEnd>(card: &C, slots: &[u8], number: u16, see: &mut impl FnMut(u64)) {
    let mut part = [0; 2];
    see(card.show(slots, number, &mut part).into());
    for number in part {
        see(number);
    }
}

#[inline(always)]
fn under_way<C: CardEnd>(
    card: &mut C,
    slots: &mut [u8],
    data: &[u8],
    at_once: bool,
    see: &mut impl FnMut(u64),
) {
    let mut first = 0;
    for index in 0..UNDER_WAY {
        let number = one_frame(card, slots, 1, data, see);
        if index == 0 {
            first = number;
        }
        show(card, slots, number, see);
    }
    if at_once {
        acknowledge(card, first, UNDER_WAY as u8, see);
        return;
    }
    for index in 0..UNDER_WAY {
        // 13 and 32 have no factor in common, so each comes once.
        let number = first.wrapping_add((13 * index + 7) % UNDER_WAY);
        acknowledge(card, number, 1, see);
    }
}
