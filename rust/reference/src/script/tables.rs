//! Lines about a table for the program `calls`: cards that register, are removed and
//! register again, more than fit, in regions that touch, overlap or lie outside; frames of
//! all of them and of others, with memories that end too soon; and pairs that are taken
//! out and adopted. The reference answers along, to know what to aim at.

use crate::aimed;
use crate::calls::{Program, hex};
use crate::ends::Sound;
use crate::host::Host;
use crate::rng::Rng;
use crate::table::{MOST_CARDS, Region, Registered};

/// Lines from one table to the next.
const EPISODE: usize = 400;

/// An endless script.
#[derive(Clone, Debug)]
pub struct Tables {
    rng: Rng,
    program: Program<Sound>,
    left: usize,
    own: u16,
    /// About how many cards are there at a time.
    cards: usize,
    /// Frames that were delivered.
    recent: Vec<Vec<u8>>,
    /// Lines to come before any other, the last one first.
    due: Vec<String>,
}

impl Tables {
    /// The seed's script.
    pub fn new(seed: u64) -> Tables {
        Tables {
            rng: Rng::new(seed),
            program: Program::new(Sound),
            left: 20,
            own: 0,
            cards: 1,
            recent: Vec::new(),
            due: Vec::new(),
        }
    }

    /// The next line without its newline, and what the reference answers.
    pub fn next_line(&mut self) -> (Vec<u8>, String) {
        if self.left == 0 && self.due.is_empty() {
            self.begin();
        }
        let line = self.due.pop().unwrap_or_else(|| {
            self.left -= 1;
            self.any_line()
        });
        let answer = self.program.line(line.as_bytes());
        (line.into_bytes(), answer)
    }

    /// That many lines, each with its newline.
    pub fn text(&mut self, lines: usize) -> Vec<u8> {
        let mut text = Vec::new();
        for _ in 0..lines {
            text.extend(self.next_line().0);
            text.push(b'\n');
        }
        text
    }

    fn begin(&mut self) {
        self.left = EPISODE;
        self.recent.clear();
        self.own = self.rng.pick(&[0, 1, 1, 1, 1, 1, 2, 2, 7, 7, 300, 65_535]);
        self.cards = self.rng.pick(&[1, 2, 4, MOST_CARDS, MOST_CARDS + 1]);
        let memory = match self.cards {
            MOST_CARDS.. => self.rng.pick(&[400, 600]),
            _ => self.rng.pick(&[1, 30, 100, 100, 300, 300]),
        };
        self.due = vec![format!("table {} {memory}", self.own)];
    }

    fn any_line(&mut self) -> String {
        let here = self.program.table().cards().len();
        match self.rng.below(100) {
            0..4 => "tablestate".to_string(),
            4..9 => "memory".to_string(),
            9..11 => "state".to_string(),
            11 => self.no_form(),
            12 => {
                let frame = self.any_frame().1;
                format!("receive {}", hex(&frame))
            }
            13..17 => self.take(),
            17..20 => self.adopt_any(),
            // Only as many are removed as register.
            20..23 => self.remove(),
            23..26 => self.register(),
            _ if here < self.cards && self.rng.chance(1, 3) => self.register(),
            _ => self.deliver(),
        }
    }

    fn memory(&self) -> u64 {
        self.program.memory().len() as u64
    }

    fn any_card(&mut self) -> Option<Registered> {
        let cards = self.program.table().cards();
        (!cards.is_empty()).then(|| self.rng.pick(&cards))
    }

    fn any_source(&mut self) -> u16 {
        match self.rng.below(12) {
            0 => self.rng.pick(&[0, 0, 65_535]),
            1 => self.own,
            _ => self.rng.between(2, 24) as u16,
        }
    }

    fn register(&mut self) -> String {
        let source = self.any_source();
        let (Region { first, length }, memory) = self.any_region();
        format!("register {source} {first} {length} {memory}")
    }

    /// A region, mostly free, and the length of memory that is told with it.
    fn any_region(&mut self) -> (Region, u64) {
        let free = self.free_region();
        let region = match self.rng.below(12) {
            0..2 => self.around_a_card().unwrap_or(free),
            2 => self.outside(),
            _ => free,
        };
        let memory = self.memory();
        let end = u64::try_from(region.bytes().end).unwrap_or(u64::MAX);
        let told = match self.rng.below(30) {
            0 => end,
            1 => end.saturating_sub(1),
            2 => u64::MAX,
            3 => 0,
            _ => memory,
        };
        (region, told)
    }

    /// A region that no card has, if that is soon found.
    fn free_region(&mut self) -> Region {
        let memory = self.memory();
        let cards = self.program.table().cards();
        let mut region = Region {
            first: 0,
            length: 1,
        };
        for _ in 0..12 {
            let longest = if self.cards >= MOST_CARDS { 20 } else { 60 };
            let length = self
                .rng
                .pick(&[3, 4, 8, 8, 8, 12, 20, longest])
                .min(memory.max(1));
            let last = memory.saturating_sub(length);
            let first = self.rng.below(last as usize + 1) as u64;
            region = Region { first, length };
            if cards.iter().all(|card| !card.region.overlaps(region)) {
                break;
            }
        }
        region
    }

    /// A region that touches a card's, has one byte of it, or more.
    fn around_a_card(&mut self) -> Option<Region> {
        let Region { first, length } = self.any_card()?.region;
        let end = first + length;
        let other = self.rng.between(1, 9) as u64;
        let (first, length) = match self.rng.below(8) {
            0 => (end, other),
            1 => (end - 1, other),
            2 => (first.saturating_sub(other), other),
            3 => (first.saturating_sub(other), other + 1),
            4 => (first, length),
            5 => (first, 1),
            6 => (first.saturating_sub(1), length.saturating_add(2)),
            _ => (first + length / 2, 1),
        };
        Some(Region { first, length })
    }

    /// A region of no bytes, one that ends past memory, or past all numbers.
    fn outside(&mut self) -> Region {
        let memory = self.memory();
        let length = self.rng.between(1, 9) as u64;
        let (first, length) = match self.rng.below(7) {
            0 => (0, 0),
            1 => (self.rng.below(memory as usize + 2) as u64, 0),
            2 => (memory.saturating_sub(length) + 1, length),
            3 => (memory, length),
            4 => (u64::MAX - length + 1, length),
            5 => (u64::MAX - self.rng.below(3) as u64, u64::MAX),
            // The sum is a good end in 64 bits.
            _ => (length + 3, u64::MAX - length - 2 + self.rng.below(4) as u64),
        };
        Region { first, length }
    }

    fn remove(&mut self) -> String {
        let source = match self.any_card() {
            Some(card) if self.rng.chance(2, 3) => card.source,
            _ => self.any_source(),
        };
        if self.rng.chance(1, 3) {
            let (Region { first, length }, memory) = self.any_region();
            let again = format!("register {source} {first} {length} {memory}");
            self.due.push(again);
        }
        format!("remove {source}")
    }

    fn deliver(&mut self) -> String {
        let (card, frame) = self.any_frame();
        let end = card.map_or(0, |card| card.region.bytes().end as u64);
        let memory = match self.rng.below(24) {
            0 => self.rng.below(self.memory() as usize + 1) as u64,
            1 => u64::MAX,
            2 => end,
            3 | 4 => end.saturating_sub(1),
            _ => self.memory(),
        };
        if self.recent.len() > 40 {
            self.recent.remove(0);
        }
        self.recent.push(frame.clone());
        format!("deliver {memory} {}", hex(&frame))
    }

    /// A frame, and the card that it is of before it is damaged.
    fn any_frame(&mut self) -> (Option<Registered>, Vec<u8>) {
        let card = self.any_card();
        let (pair, length) = match card {
            Some(card) if !self.rng.chance(1, 12) => {
                let pair = self.program.table().take(card.source);
                (pair.expect("it is registered"), card.region.length)
            }
            _ => (Host::starting_at(self.own, self.any_source(), 0, 0), 20),
        };
        let mut frame = aimed::frame(&mut self.rng, &pair, length);
        if !self.recent.is_empty() && self.rng.chance(1, 10) {
            frame = self.recent[self.rng.below(self.recent.len())].clone();
        }
        if self.rng.chance(1, 8) {
            frame = aimed::damaged(&mut self.rng, &frame);
        }
        (card, frame)
    }

    /// A pair is taken out, and most often removed and adopted in the same place or another.
    fn take(&mut self) -> String {
        let card = match self.any_card() {
            Some(card) if !self.rng.chance(1, 8) => card,
            _ => return format!("take {}", self.any_source()),
        };
        let (region, memory) = match self.rng.below(3) {
            0 => self.any_region(),
            _ => (card.region, self.memory()),
        };
        let adopt = format!("adopt {} {} {memory}", region.first, region.length);
        match self.rng.below(4) {
            0 => self.due.push(adopt),
            1 => self.due.push("state".to_string()),
            _ => {
                self.due.extend([adopt, format!("remove {}", card.source)]);
            }
        }
        format!("take {}", card.source)
    }

    /// Adopts a pair of any numbers, which comes from a text.
    fn adopt_any(&mut self) -> String {
        let (Region { first, length }, memory) = self.any_region();
        let adopt = format!("adopt {first} {length} {memory}");
        if self.rng.chance(1, 4) {
            return adopt;
        }
        self.due.push(adopt);
        let own = match self.rng.below(6) {
            0 => self.any_source(),
            _ => self.own,
        };
        let next = self.rng.pick(&[0, 5, 65_500, 65_535]);
        let lowest = self.rng.pick(&[0, 9, u32::MAX - 3, u32::MAX]);
        let pair = Host::starting_at(own, self.any_source(), next, lowest);
        // No text is read as a pair with an ID 0, and the host then has both.
        format!("restore {}", hex(pair.text().as_bytes()))
    }

    fn no_form(&mut self) -> String {
        let lines = [
            "table 1",
            "table 65536 1",
            "table 1 1048577",
            "table 1 1 1",
            "register 2 0 1",
            "register 65536 0 1 1",
            "register 2 18446744073709551616 1 1",
            "register 2 0 18446744073709551616 1",
            "register 2 0 1 18446744073709551616",
            "register 2 0 -1 1",
            "register  0 1 1",
            "remove",
            "remove 65536",
            "remove 2 ",
            "deliver 1",
            "deliver 18446744073709551616 -",
            "deliver 1 0",
            "deliver - -",
            "take",
            "take 65536",
            "adopt 0 1",
            "adopt 0 18446744073709551616 1",
            "adopt 0 1 1 1",
            "tablestate 1",
            "Tablestate",
        ];
        self.rng.pick(&lines).to_string()
    }
}
