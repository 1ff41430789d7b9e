//! The frames that hosts are timed on, all of a shape equally long, with the numbers of
//! frames and transactions going on from 0. Shapes differ in how many messages share a
//! frame or a transaction, and in the order in which the frames arrive.

use reference::wire::{FRAME_HEADER, MESSAGE_HEADER, Message, next_header, write_frame};
use std::ops::Range;

/// Bytes of the memory that hosts are timed with.
pub const MEMORY: usize = 1 << 16;
/// Cards of the tables that are timed, with the sources from [`FIRST_SOURCE`] on.
pub const CARDS: usize = 16;
/// The source of the frames of a host, and of the card at a table's first place.
pub const FIRST_SOURCE: u16 = 2;
/// Bytes of a card's region.
pub const REGION: usize = MEMORY / CARDS;
/// Frames that are put out of order with each other: as many as the windows of both frames
/// and transactions take.
const BLOCK: usize = 32;

/// How the frames of a shape arrive.
#[derive(Clone, Copy, Debug, PartialEq, Eq)]
pub enum Order {
    /// In the order of their numbers.
    InTurn,
    /// Out of order, but inside the window.
    Reordered,
    /// Each twice.
    Twice,
}

/// How the frames of a benchmark are made up.
#[derive(Clone, Copy, Debug)]
pub struct Shape {
    /// What it is called in the report.
    pub name: &'static str,
    /// Messages of a frame.
    pub messages: usize,
    /// Data bytes of each but the last, and of the last.
    pub data: [usize; 2],
    /// Messages of a transaction.
    pub count: usize,
    /// How they arrive.
    pub order: Order,
}

/// Whose frames a table gets. All sixteen are registered.
#[derive(Clone, Copy, Debug, PartialEq, Eq)]
pub enum Cards {
    /// Those of the card at this place.
    At(usize),
    /// A frame of each in turn.
    InTurn,
}

impl Cards {
    /// The places of those that send.
    pub fn places(self) -> Range<usize> {
        match self {
            Cards::At(place) => place..place + 1,
            Cards::InTurn => 0..CARDS,
        }
    }
}

const fn shape(
    name: &'static str,
    messages: usize,
    data: [usize; 2],
    count: usize,
    order: Order,
) -> Shape {
    Shape {
        name,
        messages,
        data,
        count,
        order,
    }
}

/// What hosts are timed on.
pub const SHAPES: [Shape; 7] = [
    shape(
        "a: 1 message of 1,466 bytes",
        1,
        [0, 1_466],
        1,
        Order::InTurn,
    ),
    shape("b: 46 messages of 8 bytes", 46, [8, 8], 1, Order::InTurn),
    shape(
        "c: transactions over 16 frames",
        1,
        [0, 1_466],
        16,
        Order::InTurn,
    ),
    shape("d: frames of 38 bytes", 1, [0, 4], 1, Order::InTurn),
    shape(
        "e: 10 messages, 2 a transaction",
        10,
        [128, 128],
        2,
        Order::InTurn,
    ),
    shape("f: as d, out of order", 1, [0, 4], 1, Order::Reordered),
    shape("g: as d, each twice", 1, [0, 4], 1, Order::Twice),
];

/// What the replay is timed on: frames of 1,500 bytes each.
pub const REPLAY_SHAPES: [Shape; 3] = [
    shape("1 message", 1, [0, 1_466], 1, Order::InTurn),
    shape("10 messages", 10, [128, 98], 2, Order::InTurn),
    shape("46 messages", 46, [8, 26], 1, Order::InTurn),
];

impl Shape {
    /// Bytes of a frame.
    pub fn size(&self) -> usize {
        let pitch = next_header(FRAME_HEADER + MESSAGE_HEADER + self.data[0]) - FRAME_HEADER;
        FRAME_HEADER + (self.messages - 1) * pitch + MESSAGE_HEADER + self.data[1]
    }

    /// That many arrivals, one after another, for a memory of that many bytes; a whole number
    /// of blocks, so that no frame stays away.
    pub fn frames(&self, arrivals: usize, memory: usize) -> Vec<u8> {
        assert!(arrivals.is_multiple_of(BLOCK));
        let mut all = Vec::with_capacity(arrivals * self.size());
        let data: Vec<u8> = (0..2_000).map(|byte| byte as u8).collect();
        for arrival in 0..arrivals {
            let frame = match self.order {
                Order::InTurn => arrival,
                Order::Twice => arrival / 2,
                // 13 and 32 have no factor in common, so each comes once.
                Order::Reordered => arrival / BLOCK * BLOCK + (13 * arrival + 7) % BLOCK,
            };
            let messages =
                (0..self.messages).map(|index| self.message(frame, index, &data, memory));
            let messages: Vec<Message> = messages.collect();
            all.extend(write_frame(1, FIRST_SOURCE, frame as u16, &messages));
        }
        assert_eq!(all.len(), arrivals * self.size());
        all
    }

    /// That many arrivals of one card or of all in turn, whose numbers start at 0 each.
    pub fn frames_of(&self, cards: Cards, arrivals: usize) -> Vec<u8> {
        let (places, size) = (cards.places(), self.size());
        let one = self.frames(arrivals / places.len(), REGION);
        let mut all = Vec::with_capacity(one.len() * places.len());
        for frame in one.chunks_exact(size) {
            for place in places.clone() {
                let start = all.len();
                all.extend(frame);
                let source = FIRST_SOURCE + place as u16;
                all[start + 2..start + 4].copy_from_slice(&source.to_le_bytes());
            }
        }
        all
    }

    fn message<'a>(
        &self,
        frame: usize,
        index: usize,
        data: &'a [u8],
        memory: usize,
    ) -> Message<'a> {
        let length = self.data[usize::from(index + 1 == self.messages)];
        let transaction = (frame * self.messages + index) / self.count;
        // Spread over memory without a pattern that a cache could make too easy.
        let place = (frame * self.messages + index).wrapping_mul(2_654_435_761);
        Message {
            transaction: transaction as u32,
            completion_address: (transaction * 4 % (memory / 4)) as u32,
            completion_value: transaction as u32,
            count: self.count as u16,
            data_address: (place % (memory - length)) as u32,
            data: &data[..length],
        }
    }

    /// Data bytes of a frame.
    pub fn data_bytes(&self) -> usize {
        (self.messages - 1) * self.data[0] + self.data[1]
    }

    /// Data bytes of that many arrivals that are accepted.
    pub fn accepted_bytes(&self, arrivals: usize) -> u64 {
        let frames = match self.order {
            Order::Twice => arrivals / 2,
            _ => arrivals,
        };
        (frames * self.data_bytes()) as u64
    }
}
