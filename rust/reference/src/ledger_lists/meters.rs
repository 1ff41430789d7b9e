//! Meters that count the bytes of subscribers in 64 bits, and the blocks that are read off
//! them. What passes between two readings that are accepted is less than 2^32, whatever is
//! refused between them.

use crate::ledger::{Ledger, READING, Reading, SUBSCRIBERS, block_of};
use crate::rng::Rng;
use std::collections::BTreeMap;

/// Values of a counter.
const COUNTS: u64 = 1 << 32;

/// A reading with the true count behind it.
#[derive(Clone, Copy, Debug, PartialEq, Eq)]
pub struct TrueReading {
    /// Whose it is, or a number that no subscriber has.
    pub subscriber: u32,
    /// All bytes that were ever counted.
    pub count: u64,
}

impl TrueReading {
    /// What is sent of it: the count modulo 2^32.
    pub fn reading(self) -> Reading {
        Reading {
            subscriber: self.subscriber,
            counter: (self.count % COUNTS) as u32,
        }
    }
}

/// A block as it comes to the ledger.
#[derive(Clone, Debug, PartialEq, Eq)]
pub struct Block {
    /// Its bytes.
    pub bytes: Vec<u8>,
    /// The readings that it was made of; a cut one at the end is not among them.
    pub readings: Vec<TrueReading>,
}

impl Block {
    /// The block of these readings.
    pub fn of(readings: &[TrueReading]) -> Block {
        let sent: Vec<Reading> = readings.iter().map(|reading| reading.reading()).collect();
        Block {
            bytes: block_of(&sent),
            readings: readings.to_vec(),
        }
    }
}

/// The meters of some subscribers.
#[derive(Clone, Debug)]
pub struct Meters {
    rng: Rng,
    /// Those that can be read here, and those that are read often.
    all: Vec<u32>,
    few: Vec<u32>,
    counts: BTreeMap<u32, u64>,
    /// The counts at the last readings that are, or will be, accepted.
    lasts: BTreeMap<u32, u64>,
}

impl Meters {
    /// The meters of those subscribers that are counted here. The counters of accounts that
    /// the ledger starts with were read off them.
    pub fn new(rng: &mut Rng, start: &Ledger, is_here: impl Fn(u32) -> bool) -> Meters {
        let mut rng = Rng::new(rng.next_u64());
        let all: Vec<u32> = (0..SUBSCRIBERS).filter(|who| is_here(*who)).collect();
        let accounts = all.iter();
        let accounts = accounts.filter_map(|who| Some((*who, start.account(*who)?)));
        let counts = accounts.map(|(who, account)| {
            let wraps = rng.below(1_000) as u64;
            (who, wraps * COUNTS + u64::from(account.counter))
        });
        let counts: BTreeMap<u32, u64> = counts.collect();
        let mut few: Vec<u32> = counts.keys().copied().collect();
        for _ in 0..rng.pick(&[1, 3, 10]) {
            few.push(rng.pick(&all));
        }
        Meters {
            rng,
            all,
            few,
            lasts: counts.clone(),
            counts,
        }
    }

    /// All bytes that a subscriber's meter has counted, if it was ever looked at.
    pub fn count(&self, subscriber: u32) -> Option<u64> {
        self.counts.get(&subscriber).copied()
    }

    /// The counts at the last readings that are, or will be, accepted.
    pub fn lasts(&self) -> &BTreeMap<u32, u64> {
        &self.lasts
    }

    /// Takes over which readings were accepted last.
    pub fn keep(&mut self, lasts: BTreeMap<u32, u64>) {
        self.lasts = lasts;
    }

    /// A block of so many bytes without readings of those that are left out. A size that is
    /// no multiple of a reading's gets it refused, and so does an unknown subscriber, which
    /// some have.
    pub fn block(&mut self, size: usize, is_left_out: impl Fn(u32) -> bool) -> Block {
        let (readings, cut) = (size / READING, size % READING);
        let unknown = match self.rng.below(8) {
            0 if readings > 0 => Some(self.rng.below(readings)),
            _ => None,
        };
        let is_refused = cut > 0 || unknown.is_some();
        let (mut made, mut in_block) = (Vec::new(), BTreeMap::new());
        while made.len() < readings {
            let reading = match unknown {
                Some(place) if place == made.len() => self.unknown(),
                _ => self.read(is_refused, &mut in_block, &is_left_out),
            };
            made.push(reading);
        }
        let mut block = Block::of(&made);
        block.bytes.extend(self.rng.bytes(cut));
        block
    }

    /// Reads a meter after some more bytes were counted. Readings of one block are less than
    /// 2^32 apart too, whether the block is refused or not.
    fn read(
        &mut self,
        is_refused: bool,
        in_block: &mut BTreeMap<u32, u64>,
        is_left_out: impl Fn(u32) -> bool,
    ) -> TrueReading {
        loop {
            let subscriber = match self.rng.below(8) {
                0 => self.rng.pick(&self.all),
                _ => self.rng.pick(&self.few),
            };
            let subscriber = match is_left_out(subscriber) {
                true => self.rng.pick(&self.all),
                false => subscriber,
            };
            let first = (self.rng.below(1_000) as u64) * COUNTS + u64::from(self.rng.next_u32());
            let count = self.counts.entry(subscriber).or_insert(first);
            let last = self.lasts.get(&subscriber).or(in_block.get(&subscriber));
            // Before the first accepted reading anything may pass.
            let most = last.map_or(*count + 3 * COUNTS, |last| last + COUNTS - 1);
            let Some(room) = most.checked_sub(*count) else {
                continue;
            };
            if is_left_out(subscriber) {
                continue;
            }
            *count += match self.rng.below(8) {
                0 => 0,
                1 => room,
                2 | 3 => room.min(self.rng.between(1, 2_000) as u64),
                _ => self.rng.next_u64() % (room + 1),
            };
            let count = *count;
            in_block.insert(subscriber, count);
            if !is_refused {
                self.lasts.insert(subscriber, count);
            }
            return TrueReading { subscriber, count };
        }
    }

    fn unknown(&mut self) -> TrueReading {
        let known = self.rng.pick(&self.all);
        TrueReading {
            subscriber: self.rng.pick(&[
                SUBSCRIBERS,
                SUBSCRIBERS,
                SUBSCRIBERS + known,
                (1 << 16) + known,
                u32::MAX,
            ]),
            count: self.rng.next_u64(),
        }
    }
}
