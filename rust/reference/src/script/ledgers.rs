//! Lines about a ledger for the program `calls`: blocks of every size, of few subscribers
//! and of many, with counters that stand, rise and wrap; blocks with faults of every kind,
//! also several in one; and questions for totals. A script may start with a ledger that is
//! nearly full. The reference answers along, to know what to aim at.

use crate::calls::{Program, hex};
use crate::ends::Sound;
use crate::ledger::{Account, Ledger, READING, Reading, SUBSCRIBERS, block_of};
use crate::rng::Rng;

/// Lines from one ledger to the next.
const EPISODE: usize = 400;

/// An endless script.
#[derive(Clone, Debug)]
pub struct Ledgers {
    rng: Rng,
    start: Ledger,
    program: Program<Sound>,
    /// Lines until the ledger is emptied, which a full one is not.
    left: Option<usize>,
    /// Those that most readings are of.
    subscribers: Vec<u32>,
}

impl Ledgers {
    /// The seed's script from an empty ledger.
    pub fn new(seed: u64) -> Ledgers {
        let mut rng = Rng::new(seed);
        let subscribers = few_subscribers(&mut rng);
        Ledgers {
            left: Some(EPISODE),
            ..Ledgers::starting_with(rng, Ledger::open(), subscribers)
        }
    }

    /// The seed's script from a ledger whose sum is near its end, which it stays near.
    pub fn nearly_full(seed: u64) -> Ledgers {
        let mut rng = Rng::new(seed);
        let subscribers = few_subscribers(&mut rng);
        let room = any_room(&mut rng);
        let mut left = u64::MAX - room;
        let accounts = subscribers.iter().enumerate().map(|(index, subscriber)| {
            let total = match index {
                0 => 0,
                _ => rng.pick(&[0, 1, left / 2, left / 3]),
            };
            left -= total;
            (*subscriber, account(&mut rng, total))
        });
        let mut accounts: Vec<(u32, Account)> = accounts.collect();
        accounts[0].1.total = left;
        let start = Ledger::starting_with(&accounts, u64::MAX - room);
        Ledgers::starting_with(rng, start, subscribers)
    }

    /// The seed's script from a ledger that no blocks lead to: a total is nearer to its end
    /// than the sum is.
    pub fn any_start(seed: u64) -> Ledgers {
        let mut rng = Rng::new(seed);
        let subscribers = few_subscribers(&mut rng);
        let accounts = subscribers.iter().map(|subscriber| {
            let total = u64::MAX - any_room(&mut rng);
            (*subscriber, account(&mut rng, total))
        });
        let accounts: Vec<(u32, Account)> = accounts.collect();
        let sum = rng.pick(&[0, 1 << 32, 1 << 63]);
        let start = Ledger::starting_with(&accounts, sum);
        Ledgers::starting_with(rng, start, subscribers)
    }

    fn starting_with(rng: Rng, start: Ledger, subscribers: Vec<u32>) -> Ledgers {
        Ledgers {
            rng,
            program: Program::starting_with(Sound, &start),
            start,
            left: None,
            subscribers,
        }
    }

    /// The ledger before the first line.
    pub fn start(&self) -> &Ledger {
        &self.start
    }

    /// The next line without its newline, and what the reference answers.
    pub fn next_line(&mut self) -> (Vec<u8>, String) {
        let line = match &mut self.left {
            Some(0) => {
                self.left = Some(EPISODE);
                self.subscribers = few_subscribers(&mut self.rng);
                "ledger".to_string()
            }
            Some(left) => {
                *left -= 1;
                self.any_line()
            }
            None => self.any_line(),
        };
        let answer = self.program.line(line.as_bytes());
        (line.into_bytes(), answer)
    }

    /// That many lines, each with its newline.
    pub fn text(&mut self, lines: usize) -> Vec<u8> {
        let mut text = Vec::new();
        for _ in 0..lines {
            text.extend(self.next_line().0);
            text.push(b'\n');
        }
        text
    }

    fn any_line(&mut self) -> String {
        match self.rng.below(100) {
            0..2 => self.no_form(),
            2 => format!("class {}", self.rng.between(38, 44)),
            3..30 => format!("total {}", self.any_subscriber()),
            _ => format!("block {}", hex(&self.any_block())),
        }
    }

    fn any_subscriber(&mut self) -> u32 {
        match self.rng.below(12) {
            0 => self.rng.pick(&[0, 1, SUBSCRIBERS - 2, SUBSCRIBERS - 1]),
            1 => self.rng.below(SUBSCRIBERS as usize) as u32,
            _ => self.rng.pick(&self.subscribers),
        }
    }

    fn any_block(&mut self) -> Vec<u8> {
        if self.rng.chance(1, 20) {
            let length = self.rng.below(60);
            return self.rng.bytes(length);
        }
        let mut readings = self.readings();
        if self.rng.chance(1, 8) {
            let faults = self.rng.between(1, 2);
            for _ in 0..faults {
                let unknown = self.unknown();
                let place = self.rng.below(readings.len() + 1);
                readings.insert(place, unknown);
            }
        }
        let mut block = block_of(&readings);
        if self.rng.chance(1, 10) {
            let size = self.rng.below(block.len() + READING);
            block.resize(size, 0);
        }
        block
    }

    /// Readings as they may come, each going by the one before it in the block too.
    fn readings(&mut self) -> Vec<Reading> {
        let count = match self.rng.below(40) {
            0 => 183,
            1 => self.rng.between(0, 1_100),
            2..6 => 0,
            _ => self.rng.between(1, 8),
        };
        let mut after = self.program.ledger().clone();
        let mut readings = Vec::new();
        for _ in 0..count {
            let subscriber = self.any_subscriber();
            let last = after.account(subscriber).map_or(0, |last| last.counter);
            let counter = last.wrapping_add(self.any_step(&after, subscriber));
            let reading = Reading {
                subscriber,
                counter,
            };
            readings.push(reading);
            // What goes over leaves the copy as it is.
            let _ = after.charge(reading);
        }
        readings
    }

    /// Bytes that pass, now and then just as many as there is room for, or one more.
    fn any_step(&mut self, ledger: &Ledger, subscriber: u32) -> u32 {
        let total = ledger.total(subscriber).unwrap_or(0);
        let room = u64::MAX - total.max(ledger.sum());
        let room = u32::try_from(room).unwrap_or(u32::MAX);
        match self.rng.below(20) {
            0..4 => 0,
            4..7 => self.rng.between(1, 2_000) as u32,
            7 => u32::MAX,
            8 => 1 << 31,
            9 => room,
            10 => room.wrapping_add(1),
            // Most of what comes to a ledger with little room would go over.
            11..17 if room < u32::MAX => self.rng.below(room as usize / 16 + 1) as u32,
            _ => self.rng.next_u32(),
        }
    }

    fn unknown(&mut self) -> Reading {
        let known = self.any_subscriber();
        let subscriber = match self.rng.below(8) {
            0..3 => SUBSCRIBERS,
            3 => SUBSCRIBERS + known,
            4 => (1 << 16) + known,
            5 => (1 << 31) + known,
            6 => u32::MAX,
            _ => self.rng.next_u32().max(SUBSCRIBERS),
        };
        Reading {
            subscriber,
            counter: self.rng.next_u32(),
        }
    }

    fn no_form(&mut self) -> String {
        let lines = [
            "ledger 1",
            "ledger ",
            "Ledger",
            "block",
            "block ",
            "block 0",
            "block 0 0",
            "block zz",
            "block - -",
            "total",
            "total ",
            "total 1024",
            "total 65536",
            "total 4294967296",
            "total -1",
            "total 1 1",
        ];
        self.rng.pick(&lines).to_string()
    }
}

/// A few subscribers, so that each is read often.
fn few_subscribers(rng: &mut Rng) -> Vec<u32> {
    let count = rng.pick(&[1, 2, 5, 20]);
    let mut few = Vec::new();
    while few.len() < count {
        let subscriber = rng.below(SUBSCRIBERS as usize) as u32;
        if !few.contains(&subscriber) {
            few.push(subscriber);
        }
    }
    few
}

/// How much may still be added.
fn any_room(rng: &mut Rng) -> u64 {
    match rng.below(5) {
        0 => rng.below(3) as u64,
        1 => rng.below(10_000) as u64,
        2 => rng.next_u32().into(),
        _ => u64::from(rng.next_u32()) << rng.between(1, 6),
    }
}

fn account(rng: &mut Rng, total: u64) -> Account {
    Account {
        counter: rng.next_u32(),
        total,
    }
}
