//! Compares the proved table with the independent one: random calls on tables of up to
//! sixteen cards, any words as a table, demand 3 for each card, and two tables of which one
//! card sees the same. `LW_SEED` chooses the seed, `LW_TABLES` the number of tables and
//! `LW_LISTS` the number of lists; a difference is shown with the latest calls.

#[path = "both/table.rs"]
mod both;
mod proved_table;
#[path = "both/table_words.rs"]
mod table_words;

use both::{Both, answer_words};
use logwhisker::Host as Pair;
use logwhisker::Table;
use logwhisker::raw::{self, ANSWER_WORDS, HOST_WORDS, TABLE_DESCRIPTION_WORDS, TABLE_WORDS};
use proved_table::Proved;
use reference::aimed;
use reference::ends::Sound;
use reference::host::{Answer, Host};
use reference::rng::Rng;
use reference::settings::{count_from_env, number_from_env};
use reference::table::{MOST_CARDS, Region, Registered};
use reference::table_lists::Met;
use reference::table_lists::isolation::{self, Call, Step};
use reference::table_lists::several;
use std::collections::BTreeMap;
use table_words::{FIRSTS, Held, PAIRS, SIZES, SOURCES, pair_words};

const DEFAULT_SEED: u64 = 1;
const DEFAULT_TABLES: u64 = 400;
const DEFAULT_LISTS: u64 = 400;
/// Calls of a random table.
const CALLS: usize = 400;
/// Calls of a list of demand 3, and of two tables side by side.
const LIST_CALLS: usize = 800;
const TWIN_STEPS: usize = 250;

fn seed() -> u64 {
    number_from_env("LW_SEED", DEFAULT_SEED)
}

fn tables() -> u64 {
    count_from_env("LW_TABLES", DEFAULT_TABLES)
}

fn lists() -> u64 {
    count_from_env("LW_LISTS", DEFAULT_LISTS)
}

/// How often what was met.
#[derive(Default)]
struct Tally(BTreeMap<String, u64>);

impl Tally {
    fn add(&mut self, what: &str) {
        *self.0.entry(what.to_string()).or_default() += 1;
    }

    fn done(&mut self, call: &str, done: Result<(), u8>) {
        match done {
            Ok(()) => self.add(&format!("{call} ok")),
            Err(number) => self.add(&format!("{call} R {number}")),
        }
    }

    fn answer(&mut self, answer: Answer) {
        match answer {
            Answer::Accepted { .. } => self.add("A"),
            Answer::Again { .. } => self.add("G"),
            Answer::NoMessages => self.add("N"),
            Answer::Refused { number, .. } => self.add(&format!("R {number}")),
        }
    }

    /// Without these an agreement could be one about next to nothing.
    fn assert_met(&self, wanted: &[&str], least: u64) {
        println!("{:?}", self.0);
        for what in wanted {
            let met = self.0.get(*what).copied().unwrap_or(0);
            assert!(met >= least, "{what} was met {met} times, wanted {least}");
        }
    }
}

/// Calls on one table, aimed at what is there.
struct Wild {
    rng: Rng,
    both: Both,
    own: u16,
    /// About how many cards are there at a time.
    cards: usize,
    /// Frames that were delivered, and pairs that were taken out.
    recent: Vec<Vec<u8>>,
    taken: Vec<[u64; HOST_WORDS]>,
}

impl Wild {
    fn new(seed: u64) -> Wild {
        let mut rng = Rng::new(seed);
        let own = rng.pick(&[1, 1, 1, 1, 2, 9, 65_535]);
        let cards = rng.pick(&[1, 2, 4, 8, MOST_CARDS, MOST_CARDS + 1]);
        let size = rng.pick(&[0, 1, 9, 64, 300, 300, 700, 700, 4_096]);
        let (both, opened) = Both::open(own, &rng.bytes(size));
        assert_eq!(opened, Ok(()));
        Wild {
            rng,
            both,
            own,
            cards,
            recent: Vec::new(),
            taken: Vec::new(),
        }
    }

    fn step(&mut self, tally: &mut Tally) {
        let here = self.both.table().cards().len();
        match self.rng.below(100) {
            0..8 => self.register(tally),
            8..13 => self.adopt(tally),
            13..18 => {
                let source = self.any_source();
                tally.done("remove", self.both.remove(source));
            }
            18..24 => {
                let source = self.any_source();
                let taken = self.both.take(source);
                tally.done("take", taken.map(|_| ()));
                self.taken.extend(taken);
            }
            _ if here < self.cards && self.rng.chance(1, 2) => self.register(tally),
            _ => self.deliver(here, tally),
        }
    }

    fn memory(&self) -> u64 {
        self.both.memory().len() as u64
    }

    fn any_card(&mut self) -> Option<Registered> {
        let cards = self.both.table().cards();
        (!cards.is_empty()).then(|| self.rng.pick(&cards))
    }

    fn any_source(&mut self) -> u16 {
        match self.rng.below(20) {
            0 => 0,
            1 => self.own,
            2 => self.rng.next_u16(),
            3..13 => self.any_card().map_or(2, |card| card.source),
            _ => self.new_source(),
        }
    }

    /// Mostly one that is not there.
    fn new_source(&mut self) -> u16 {
        match self.rng.below(16) {
            0 => self.rng.pick(&[0, 255, 256, 65_535]),
            1 => self.own,
            _ => self.rng.between(2, 40) as u16,
        }
    }

    fn register(&mut self, tally: &mut Tally) {
        let source = match self.rng.below(8) {
            0 => self.any_source(),
            _ => self.new_source(),
        };
        let (region, told) = self.any_region();
        tally.done("register", self.both.register(source, region, told));
    }

    /// A pair that was taken out, one of any state with our ID, or any words at all.
    fn adopt(&mut self, tally: &mut Tally) {
        let mut pair = match self.rng.below(8) {
            0..3 if !self.taken.is_empty() => {
                let index = self.rng.below(self.taken.len());
                self.taken[index]
            }
            _ => any_pair(&mut self.rng, self.own, 0),
        };
        if self.rng.chance(5, 6) {
            let source = u64::from(self.new_source());
            pair[0] = pair[0] & !0xffff_0000 | source << 16;
        }
        if self.rng.chance(1, 12) {
            pair[0] ^= 1 << self.rng.below(16);
        }
        let (region, told) = self.any_region();
        tally.done("adopt", self.both.adopt(&pair, region, told));
    }

    /// A region and the length of memory that is told with it.
    fn any_region(&mut self) -> (Region, u64) {
        let memory = self.memory();
        let region = match self.rng.below(16) {
            0..3 => self.around_a_card(),
            3 => self.outside(),
            4 => Region {
                first: self.rng.next_u64(),
                length: self.rng.next_u64() >> self.rng.below(64),
            },
            _ => self.free_region(),
        };
        let end = u64::try_from(region.bytes().end).unwrap_or(u64::MAX);
        let told = match self.rng.below(24) {
            0 => end,
            1 => end.saturating_sub(1),
            2 => u64::MAX,
            3 => 0,
            4 => self.rng.next_u64(),
            _ => memory,
        };
        (region, told)
    }

    /// One that no card has, if that is soon found; now and then it touches a card's.
    fn free_region(&mut self) -> Region {
        let memory = self.memory();
        let cards = self.both.table().cards();
        let mut region = Region {
            first: 0,
            length: 1,
        };
        for _ in 0..12 {
            let length = self.rng.pick(&[1, 4, 5, 8, 12, 20, 40]).min(memory.max(1));
            let last = memory.saturating_sub(length);
            let first = match cards[..] {
                [_, ..] if self.rng.chance(1, 3) => self.rng.pick(&cards).region.bytes().end as u64,
                _ => self.rng.below(last as usize + 1) as u64,
            };
            region = Region { first, length };
            if !cards.iter().any(|card| card.region.overlaps(region)) {
                break;
            }
        }
        region
    }

    /// One that touches a card's, has one byte of it, or more.
    fn around_a_card(&mut self) -> Region {
        let Some(card) = self.any_card() else {
            return self.outside();
        };
        let Region { first, length } = card.region;
        let end = first + length;
        let other = self.rng.between(1, 9) as u64;
        let (first, length) = match self.rng.below(8) {
            0 => (end, other),
            1 => (end - 1, other),
            2 => (first.saturating_sub(other), other),
            3 => (first.saturating_sub(other), other + 1),
            4 => (first, length),
            5 => (first.saturating_sub(1), length.saturating_add(2)),
            // Past all 64-bit numbers and back into the card's.
            6 => (end, (u64::MAX - length).max(1)),
            _ => (first + length / 2, 1),
        };
        Region { first, length }
    }

    /// One of no bytes, or one that ends past memory or past all 64-bit numbers.
    fn outside(&mut self) -> Region {
        let memory = self.memory();
        let some = self.rng.between(1, 9) as u64;
        let (first, length) = match self.rng.below(6) {
            0 => (self.rng.below(memory as usize + 2) as u64, 0),
            1 => (memory.saturating_sub(some) + 1, some),
            2 => (memory, some),
            3 => (u64::MAX - some + 1, some),
            4 => (u64::MAX, u64::MAX),
            // The sum is a good end in 64 bits.
            _ => (some + 3, u64::MAX - some - 2 + self.rng.below(4) as u64),
        };
        Region { first, length }
    }

    fn deliver(&mut self, here: usize, tally: &mut Tally) {
        let card = self.any_card();
        let (pair, length) = match card {
            Some(card) if !self.rng.chance(1, 16) => {
                let pair = self.both.table().take(card.source);
                (pair.expect("it is registered"), card.region.length)
            }
            _ => (Host::starting_at(self.own, self.any_source(), 0, 0), 20),
        };
        let mut frame = aimed::frame(&mut self.rng, &pair, length);
        if !self.recent.is_empty() && self.rng.chance(1, 12) {
            frame = self.recent[self.rng.below(self.recent.len())].clone();
        }
        if self.rng.chance(1, 10) {
            frame = aimed::damaged(&mut self.rng, &frame);
        }
        let memory = self.memory() as usize;
        let end = card.map_or(0, |card| card.region.bytes().end) as usize;
        let lent = match self.rng.below(24) {
            0 => self.rng.below(memory + 1),
            1 | 2 => end,
            3 | 4 => end.saturating_sub(1),
            _ => memory,
        };
        let number = self.rng.next_u16();
        let answer = self.both.receive(&frame, lent.min(memory), number);
        tally.answer(answer);
        if here == MOST_CARDS && matches!(answer, Answer::Accepted { .. }) {
            tally.add("A among sixteen");
        }
        if self.recent.len() > 40 {
            self.recent.remove(0);
        }
        self.recent.push(frame);
    }
}

/// Words of a pair in any state: of these IDs, with windows and places of every kind, and
/// with bits that have no meaning.
fn any_pair(rng: &mut Rng, own: u16, peer: u16) -> [u64; HOST_WORDS] {
    let mut words = [0; HOST_WORDS];
    words.fill_with(|| rng.next_u64());
    let next = rng.pick(&[0, 1, 65_500, 65_535, words[0] >> 32 & 0xffff]);
    words[0] = u64::from(own) | u64::from(peer) << 16 | next << 32 | words[0] >> 48 << 48;
    words[1] = match rng.below(4) {
        0 => u64::MAX,
        1 => words[1] & rng.next_u64() & rng.next_u64(),
        _ => 0,
    };
    let lowest = rng.pick(&[0, 31, u64::from(u32::MAX - 5), words[2] >> 32]);
    let closed = match rng.below(3) {
        0 => words[2] & rng.next_u64() & rng.next_u64(),
        _ => 0,
    };
    words[2] = lowest | closed >> 32 << 32;
    let often = rng.pick(&[0, 1, 4]);
    for place in 0..32 {
        let count = rng.pick(&[0, 1, 2, 3, 65_535]);
        let received = match rng.below(8) {
            0 => count,
            step if step <= often => rng.between(1, 4) as u64,
            _ => 0,
        };
        let at = 3 + 2 * place;
        words[at] = rng.below(40) as u64 | words[at] >> 32 << 32;
        words[at + 1] = count | received << 16 | words[at + 1] >> 32 << 32;
    }
    words
}

#[test]
fn calls_of_every_kind() {
    let (seed, tables) = (seed(), tables());
    let mut tally = Tally::default();
    for table in 0..tables {
        let mut wild = Wild::new(seed.wrapping_mul(1_000_003).wrapping_add(table));
        for _ in 0..CALLS {
            wild.step(&mut tally);
        }
    }
    if tables >= DEFAULT_TABLES {
        let registering = ["ok", "R 13", "R 28", "R 29", "R 30", "R 31"];
        let answers = [
            "A", "G", "N", "R 1", "R 2", "R 3", "R 4", "R 5", "R 6", "R 7", "R 8", "R 9", "R 10",
            "R 11", "R 12", "R 31",
        ];
        let wanted: Vec<String> = ["register", "adopt"]
            .iter()
            .flat_map(|call| registering.map(|done| format!("{call} {done}")))
            .chain(["remove ok", "remove R 3", "take ok", "take R 3"].map(String::from))
            .chain(answers.map(String::from))
            .chain(["A among sixteen".to_string()])
            .collect();
        let wanted: Vec<&str> = wanted.iter().map(String::as_str).collect();
        tally.assert_met(&wanted, 50);
    }
}

/// Any words: sources that are there twice, regions that overlap, end past memory or past
/// all numbers, free places with a region, pairs of any IDs and state, and bits that have no
/// meaning.
fn any_words(rng: &mut Rng) -> [u64; TABLE_WORDS] {
    let mut words = [0; TABLE_WORDS];
    words.fill_with(|| rng.next_u64());
    if rng.chance(1, 16) {
        return words;
    }
    let low = |rng: &mut Rng, word: u64, id: u16| match rng.below(2) {
        0 => id.into(),
        _ => word >> 16 << 16 | u64::from(id),
    };
    let own = rng.pick(&[1, 1, 1, 1, 1, 2, 0]);
    words[0] = low(rng, words[0], own);
    let most = rng.pick(&[3, 8, 30]);
    let free = rng.pick(&[0, 2, 8]);
    for place in 0..MOST_CARDS {
        let source = match rng.below(10) {
            step if step < free => 0,
            _ => rng.between(1, most) as u16,
        };
        words[SOURCES + place] = low(rng, words[SOURCES + place], source);
        let (first, size) = match rng.below(16) {
            0 => (words[FIRSTS + place], words[SIZES + place]),
            1 => (rng.below(80) as u64, u64::MAX - rng.below(80) as u64),
            2 => (rng.below(90) as u64, 0),
            3 => (0, 0),
            _ => (rng.below(60) as u64, rng.below(30) as u64),
        };
        words[FIRSTS + place] = first;
        words[SIZES + place] = size;
        let (own, peer) = match rng.below(12) {
            0 => (rng.next_u16(), source),
            1 => (own, rng.next_u16()),
            _ => (own, source),
        };
        let pair = any_pair(rng, own, peer);
        words[PAIRS + HOST_WORDS * place..][..HOST_WORDS].copy_from_slice(&pair);
    }
    words
}

/// A call on a table of any words, and what the layout of the words says of it.
struct AnyWords {
    rng: Rng,
    words: [u64; TABLE_WORDS],
    held: Held,
    memory: Vec<u8>,
    /// Words and memory at the start, and the calls since, for the message of a failure.
    start: Box<[u64; TABLE_WORDS]>,
    calls: Vec<String>,
}

impl AnyWords {
    fn new(mut rng: Rng) -> AnyWords {
        let words = any_words(&mut rng);
        let length = rng.pick(&[0, 20, 60, 90, 90, 90, 90]);
        AnyWords {
            words,
            held: Held::from_words(&words),
            memory: rng.bytes(length),
            start: Box::new(words),
            calls: Vec::new(),
            rng,
        }
    }

    fn name(&self) -> String {
        format!("{:?} from {:x?}", self.calls, self.start)
    }

    fn any_source(&mut self) -> u16 {
        match self.rng.below(8) {
            0 => 0,
            1 => self.rng.next_u16(),
            2 | 3 => self.rng.between(1, 40) as u16,
            _ => {
                let place = self.rng.below(MOST_CARDS);
                self.held.entries[place].source
            }
        }
    }

    fn step(&mut self, tally: &mut Tally) {
        let before = self.words;
        match self.rng.below(10) {
            0 | 1 => {
                let source = self.any_source();
                let [first, size, told] = self.any_numbers();
                let expected = self.held.register(source, first, size, told);
                let [first, size, told] = [first, size, told].map(|n| n as usize);
                self.calls
                    .push(format!("register {source} {first} {size} {told}"));
                let got = raw::table_register(&mut self.words, source, first, size, told);
                self.compare_done("register", &before, got, expected, tally);
            }
            2 => {
                let own = match self.rng.below(4) {
                    0 => self.rng.next_u16(),
                    _ => self.held.own,
                };
                let source = self.any_source();
                let pair = any_pair(&mut self.rng, own, source);
                let [first, size, told] = self.any_numbers();
                let expected = self.held.adopt(Host::from_words(&pair), first, size, told);
                let [first, size, told] = [first, size, told].map(|n| n as usize);
                self.calls
                    .push(format!("adopt {pair:x?} {first} {size} {told}"));
                let got = raw::table_adopt(&mut self.words, &pair, first, size, told);
                self.compare_done("adopt", &before, got, expected, tally);
            }
            3 => {
                let source = self.any_source();
                self.calls.push(format!("remove {source}"));
                let expected = self.held.remove(source);
                let got = raw::table_remove(&mut self.words, source);
                self.compare_done("remove", &before, got, expected, tally);
            }
            4 => self.take(tally),
            _ => self.deliver(tally),
        }
        self.compare();
    }

    fn any_numbers(&mut self) -> [u64; 3] {
        let memory = self.memory.len() as u64;
        let first = match self.rng.below(6) {
            0 => self.rng.next_u64(),
            1 => u64::MAX - self.rng.below(4) as u64,
            _ => self.rng.below(100) as u64,
        };
        let size = match self.rng.below(6) {
            0 => self.rng.next_u64(),
            1 => u64::MAX - self.rng.below(4) as u64,
            _ => self.rng.below(6) as u64,
        };
        let told = match self.rng.below(3) {
            0 => memory,
            1 => u64::MAX,
            _ => self.rng.below(120) as u64,
        };
        [first, size, told]
    }

    fn compare_done(
        &mut self,
        call: &str,
        before: &[u64; TABLE_WORDS],
        got: u32,
        expected: Result<(), u8>,
        tally: &mut Tally,
    ) {
        let number = expected.map_or_else(u32::from, |()| 0);
        assert_eq!(got, number, "{}", self.name());
        if expected.is_err() {
            assert!(self.words == *before, "as they were: {}", self.name());
        }
        tally.done(call, expected);
    }

    fn take(&mut self, tally: &mut Tally) {
        let source = self.any_source();
        self.calls.push(format!("take {source}"));
        let junk = [0xa5; HOST_WORDS];
        let mut pair = junk;
        let got = raw::table_take(&self.words, source, &mut pair);
        let (number, expected) = match self.held.card(source) {
            Some(place) => (0, *pair_words(&self.words, place)),
            None => (3, junk),
        };
        assert_eq!(got, number, "{}", self.name());
        assert!(pair == expected, "{}", self.name());
        tally.done("take", if number == 0 { Ok(()) } else { Err(3) });
    }

    fn deliver(&mut self, tally: &mut Tally) {
        let place = self.rng.below(MOST_CARDS);
        let entry = &self.held.entries[place];
        let source = entry.source;
        let mut frame = aimed::frame(&mut self.rng, &entry.pair, entry.size);
        if self.rng.chance(7, 8) {
            frame[..2].copy_from_slice(&self.held.own.to_le_bytes());
            frame[2..4].copy_from_slice(&source.to_le_bytes());
        }
        if self.rng.chance(1, 10) {
            frame = aimed::damaged(&mut self.rng, &frame);
        }
        let length = self.memory.len();
        let lent = match self.rng.below(8) {
            0 => self.rng.below(length + 1),
            _ => length,
        };
        self.calls.push(format!("deliver {frame:02x?} to {lent}"));
        let before = self.words;
        let mut memory = self.memory.clone();
        let mut answer = [0xa5; ANSWER_WORDS];
        let mut named = 0;
        let given = &mut memory[..lent];
        raw::table_receive(&mut self.words, &frame, given, &mut named, &mut answer);
        let reached = self.held.reach(&frame, lent);
        let expected = self.held.receive(&frame, &mut self.memory[..lent]);
        assert_eq!(answer, answer_words(expected), "{}", self.name());
        assert!(memory == self.memory, "memory: {}", self.name());
        // Only words of the pair may change, and only of one that accepts.
        let pair = match (expected, reached) {
            (Answer::Accepted { .. }, Ok(place)) => PAIRS + HOST_WORDS * place,
            _ => TABLE_WORDS,
        };
        for (index, (now, then)) in self.words.iter().zip(&before).enumerate() {
            let of_pair = (pair..pair + HOST_WORDS).contains(&index);
            assert!(of_pair || now == then, "word {index}: {}", self.name());
        }
        if let Ok(place) = reached {
            let entries = &self.held.entries;
            let twice = entries.iter().filter(|entry| entry.source == named);
            if twice.count() > 1 && pair != TABLE_WORDS {
                tally.add("A of a source that is there twice");
            }
            if entries[place].pair.ids() != (self.held.own, named) {
                tally.add("a pair of other IDs");
            }
        }
        tally.answer(expected);
    }

    fn compare(&self) {
        let same = Held::from_words(&self.words) == self.held;
        assert!(same, "{}", self.name());
        let mut description = [0xa5; TABLE_DESCRIPTION_WORDS];
        raw::table_describe(&self.words, &mut description);
        let entries = self.held.entries.iter();
        let entries = entries.flat_map(|entry| [entry.source.into(), entry.first, entry.size]);
        let expected: Vec<u64> = [self.held.own.into()].into_iter().chain(entries).collect();
        assert_eq!(description[..], expected, "{}", self.name());
    }
}

#[test]
fn any_words_are_a_table() {
    let (seed, tables) = (seed(), 20 * tables());
    let mut rng = Rng::new(seed ^ 0x7ab1e);
    let mut tally = Tally::default();
    for _ in 0..tables {
        let mut any = AnyWords::new(Rng::new(rng.next_u64()));
        any.compare();
        for _ in 0..12 {
            any.step(&mut tally);
        }
    }
    if tables >= 20 * DEFAULT_TABLES {
        let wanted = [
            "register ok",
            "register R 13",
            "register R 28",
            "register R 29",
            "register R 30",
            "register R 31",
            "adopt ok",
            "adopt R 13",
            "adopt R 29",
            "adopt R 30",
            "adopt R 31",
            "remove ok",
            "remove R 3",
            "take ok",
            "take R 3",
            "A",
            "G",
            "N",
            "R 1",
            "R 2",
            "R 3",
            "R 4",
            "R 5",
            "R 6",
            "R 7",
            "R 8",
            "R 9",
            "R 10",
            "R 11",
            "R 12",
            "R 31",
            "A of a source that is there twice",
            "a pair of other IDs",
        ];
        tally.assert_met(&wanted, 10);
    }
}

/// Demand 3 for each card at the proved table, from its registering to its removal: several
/// cards beside each other, moved by taking, removing and adopting, with frames left over.
#[test]
fn each_card_keeps_the_demand() {
    let (seed, lists) = (seed(), lists());
    let mut rng = Rng::new(seed);
    let mut met = Met::default();
    for list in 0..lists {
        let made = several::make(Sound, rng.next_u64(), LIST_CALLS);
        assert_eq!(made.broken, None, "list {list} of seed {seed}");
        let proved = Proved {
            restart_after: None,
        };
        let checked = several::check(proved, &made);
        assert_eq!(checked, Ok(()), "list {list} of seed {seed}");
        met.add(&made.met);
    }
    println!("seed {seed}, {lists} lists: {met:?}");
    if lists >= DEFAULT_LISTS {
        assert_eq!(met.missed(&several::MET), [""; 0]);
    }
}

/// The same while the whole table is started anew from the texts of its pairs, before every
/// call or now and then.
#[test]
fn each_card_keeps_the_demand_over_restarts_of_the_table() {
    let (seed, lists) = (seed(), lists());
    let mut rng = Rng::new(seed ^ 0x5707e);
    for list in 0..lists {
        let made = several::make(Sound, rng.next_u64(), LIST_CALLS / 2);
        let proved = Proved {
            restart_after: Some([1, 7, 50][(list % 3) as usize]),
        };
        let checked = several::check(proved, &made);
        assert_eq!(checked, Ok(()), "list {list} of seed {seed}");
    }
}

/// Two proved tables with the same registerings, removals and frames of one card, and with
/// other frames of the others: the card's answers, pair and bytes are the same, and bytes
/// outside all regions stay.
#[test]
fn no_card_sees_what_the_others_do() {
    let (seed, lists) = (seed(), 2 * lists());
    let mut rng = Rng::new(seed);
    let mut met = Met::default();
    for list in 0..lists {
        let twins = isolation::make(rng.next_u64(), TWIN_STEPS);
        let proved = Proved {
            restart_after: (list % 4 == 3).then_some(5),
        };
        let isolated = isolation::isolated(&proved, &twins);
        assert_eq!(isolated, Ok(()), "list {list} of seed {seed}");
        met.add(&twins.met);
    }
    println!("seed {seed}, {lists} pairs of lists: {met:?}");
    if lists >= 2 * DEFAULT_LISTS {
        assert_eq!(met.missed(&isolation::MET), [""; 0]);
    }
}

fn make(table: &mut Table, memory: &mut [u8], call: &Call) {
    let numbers = |region: &Region, told: u64| {
        let [first, length] = [region.first, region.length].map(|number| number as usize);
        (first, length, told as usize)
    };
    // What each call is answered is compared above.
    let _ = match call {
        Call::Register {
            source,
            region,
            memory,
        } => {
            let (first, length, told) = numbers(region, *memory);
            table.register(*source, first, length, told)
        }
        Call::Adopt {
            pair,
            region,
            memory,
        } => {
            let (first, length, told) = numbers(region, *memory);
            table.adopt(&Pair::from_words(pair.to_words()), first, length, told)
        }
        Call::Remove(source) => table.remove(*source),
        Call::Deliver { frame, lent } => {
            table.receive(frame, &mut memory[..*lent]);
            Ok(())
        }
    };
}

/// Of such tables the same words are taken out for the card that is watched.
#[test]
fn no_word_of_a_pair_comes_from_the_others() {
    let (seed, lists) = (seed(), lists());
    let mut rng = Rng::new(seed ^ 0x7a4e);
    let (mut taken, mut others_differ) = (0, 0);
    for list in 0..lists {
        let twins = isolation::make(rng.next_u64(), TWIN_STEPS);
        let mut tables = [0, 1].map(|_| Table::open(twins.own).expect("the ID is not 0"));
        let mut memories = twins.memories.clone();
        for (index, step) in twins.steps.iter().enumerate() {
            let (call, which) = match step {
                Step::Both(call) => (call, 0..2),
                Step::One(table, call) => (call, *table..table + 1),
            };
            for table in which {
                make(&mut tables[table], &mut memories[table], call);
            }
            let [one, two] = [0, 1].map(|table: usize| tables[table].take(twins.watched));
            assert_eq!(one, two, "step {index} of list {list}, seed {seed}");
            taken += u64::from(one.is_ok());
            others_differ += u64::from(one.is_ok() && tables[0] != tables[1]);
        }
    }
    println!("seed {seed}: {taken} pairs, {others_differ} of them beside others that differ");
    if lists >= DEFAULT_LISTS {
        assert!(others_differ > 20 * lists);
    }
}
