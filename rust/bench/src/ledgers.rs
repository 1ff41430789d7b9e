//! What ledgers are timed on: blocks of 183 readings, as many as a frame of 1,500 bytes has
//! room for, of all subscribers or of one; blocks that are refused for their last reading;
//! and a ledger whose sum is past half of what 64 bits hold. What a turn begins with is made
//! before it is timed.

use crate::ends::LedgerEnd;
use crate::tables::Timed;
use reference::ledger::{READING, Reading, SUBSCRIBERS, block_of};
use reference::rng::Rng;
use std::hint::black_box;

/// Readings of a block.
pub const READINGS: usize = 183;
/// Bytes of a block.
pub const BLOCK: usize = READINGS * READING;

/// What ledgers are timed on.
#[derive(Clone, Copy)]
pub struct Kind {
    /// For the line that is printed.
    pub name: &'static str,
    /// Readings are of the subscribers below this one.
    subscribers: u32,
    /// Whether the last reading of each block has 41.
    refused: bool,
    /// The total of subscriber 0 at the start, and so the sum.
    charged: u64,
}

/// All kinds.
pub const KINDS: [Kind; 4] = [
    Kind {
        name: "all subscribers",
        subscribers: SUBSCRIBERS,
        refused: false,
        charged: 0,
    },
    Kind {
        name: "one subscriber",
        subscribers: 1,
        refused: false,
        charged: 0,
    },
    Kind {
        name: "refused",
        subscribers: SUBSCRIBERS,
        refused: true,
        charged: 0,
    },
    Kind {
        name: "sum past 2^63",
        subscribers: SUBSCRIBERS,
        refused: false,
        charged: 1 << 63,
    },
];

impl Kind {
    /// So many blocks.
    pub fn blocks(&self, count: usize) -> Vec<u8> {
        let mut rng = Rng::new(1);
        let mut blocks = Vec::with_capacity(count * BLOCK);
        for _ in 0..count {
            let mut readings = [(); READINGS].map(|()| Reading {
                subscriber: rng.next_u32() % self.subscribers,
                counter: rng.next_u32(),
            });
            if self.refused {
                readings[READINGS - 1].subscriber = SUBSCRIBERS;
            }
            blocks.extend(block_of(&readings));
        }
        blocks
    }

    fn ledger<L: LedgerEnd>(&self) -> L {
        L::fresh(self.charged)
    }
}

/// A ledger that gets all blocks, so many times.
pub struct LedgerRun<'a, L> {
    kind: Kind,
    blocks: &'a [u8],
    passes: usize,
    ledger: L,
}

impl<'a, L: LedgerEnd> LedgerRun<'a, L> {
    /// To be made ready.
    pub fn new(kind: Kind, blocks: &'a [u8], passes: usize) -> LedgerRun<'a, L> {
        LedgerRun {
            kind,
            blocks,
            passes,
            ledger: kind.ledger(),
        }
    }
}

impl<L: LedgerEnd> Timed for LedgerRun<'_, L> {
    fn ready(&mut self) {
        self.ledger = self.kind.ledger();
    }

    fn turn(&mut self) -> u64 {
        let ledger = black_box(&mut self.ledger);
        let mut refused = 0;
        for _ in 0..self.passes {
            for block in black_box(self.blocks).chunks_exact(BLOCK) {
                refused += u64::from(ledger.take(block));
            }
        }
        ledger.sum().wrapping_add(refused)
    }
}

/// Holds two ledgers to the same answers, totals and sums on every block.
pub fn compare<A: LedgerEnd, B: LedgerEnd>(kind: Kind, blocks: &[u8]) {
    let (mut one, mut other): (A, B) = (kind.ledger(), kind.ledger());
    for (index, block) in blocks.chunks_exact(BLOCK).enumerate() {
        assert_eq!(one.take(block), other.take(block), "block {index}");
        assert_eq!(one.sum(), other.sum(), "block {index}");
    }
    for subscriber in 0..=SUBSCRIBERS {
        let totals = (one.total(subscriber), other.total(subscriber));
        assert_eq!(totals.0, totals.1, "subscriber {subscriber}");
    }
}
