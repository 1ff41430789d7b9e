//! Compares the proved ledger with the independent one after every block: from an empty
//! ledger, from sums and from totals near 2^64, on true counts, and any words as a ledger.
//! `LW_SEED` chooses the seed, `LW_BLOCKS` the number of blocks of each kind, or of a script's
//! lines, some of which are no blocks.

use logwhisker::Refusal;
use logwhisker::raw::LEDGER_WORDS;
use reference::calls::Program;
use reference::card::Card;
use reference::ends::{Ends, LedgerEnd, Sound, Start};
use reference::faults::{FaultyLedgers, LedgerFault};
use reference::host::Host;
use reference::ledger::{Account, Ledger, Reading, SUBSCRIBERS, block_of};
use reference::ledger_lists;
use reference::rng::Rng;
use reference::script::Ledgers;
use reference::settings::{count_from_env, number_from_env};
use reference::table::Table;
use reference::table_lists::Met;
use std::collections::BTreeMap;

const DEFAULT_SEED: u64 = 1;
const DEFAULT_BLOCKS: u64 = 20_000;
/// Lines of a script that starts with a ledger that is nearly full, and blocks of a list.
const FULL_LINES: u64 = 300;
const LIST_BLOCKS: u64 = 100;
/// Blocks that any words are given.
const WILD_BLOCKS: u64 = 20;

type Words = [u64; LEDGER_WORDS];

/// The word of the sum.
const SUM: usize = LEDGER_WORDS - 1;
/// What the second word of a subscriber that was read has above its counter.
const READ: u64 = 1 << 32;

fn seed() -> u64 {
    number_from_env("LW_SEED", DEFAULT_SEED)
}

fn blocks() -> u64 {
    count_from_env("LW_BLOCKS", DEFAULT_BLOCKS)
}

// ---- the proved ledger where the reference's may stand

/// The proved ledger, and the reference's other ends.
#[derive(Clone, Copy, Debug)]
struct ProvedLedgers;

#[derive(Debug)]
struct Proved(logwhisker::Ledger);

impl Ends for ProvedLedgers {
    type Card = Card;
    type Host = Host;
    type Table = Table;
    type Ledger = Proved;

    fn open_card(
        &self,
        own: u16,
        peer: u16,
        limit: usize,
        slots: &[u8],
        start: Start,
    ) -> (Card, Option<u8>) {
        Sound.open_card(own, peer, limit, slots, start)
    }

    fn open_host(&self, own: u16, peer: u16, start: Start) -> (Host, Option<u8>) {
        Sound.open_host(own, peer, start)
    }

    fn open_table(&self, own: u16) -> (Table, Option<u8>) {
        Sound.open_table(own)
    }

    /// An empty ledger is opened; any other is laid out in words.
    fn open_ledger(&self, start: &Ledger) -> Proved {
        if *start == Ledger::open() {
            let mut ledger = logwhisker::Ledger::from_words([u64::MAX; LEDGER_WORDS]);
            ledger.reopen();
            return Proved(ledger);
        }
        Proved(logwhisker::Ledger::from_words(words_of(start)))
    }
}

impl LedgerEnd for Proved {
    fn take(&mut self, block: &[u8]) -> Result<(), u8> {
        let before = *self.0.words();
        let taken = self.0.take(block).map_err(number_of);
        if taken.is_err() {
            assert!(*self.0.words() == before, "a refused block changed a word");
        }
        taken
    }

    fn total(&self, subscriber: u32) -> Option<u64> {
        self.0.total(subscriber)
    }

    fn sum(&self) -> u64 {
        self.0.sum()
    }
}

fn number_of(refusal: Refusal) -> u8 {
    u8::try_from(refusal.number()).expect("a ledger's refusals are numbers of 8 bits")
}

/// The words in which a ledger is kept.
fn words_of(ledger: &Ledger) -> Words {
    let mut words = [0; LEDGER_WORDS];
    let (subscribers, _) = words.as_chunks_mut();
    for (subscriber, [total, kept]) in subscribers.iter_mut().enumerate() {
        if let Some(account) = ledger.account(subscriber as u32) {
            (*total, *kept) = (account.total, READ + u64::from(account.counter));
        }
    }
    words[SUM] = ledger.sum();
    words
}

// ---- random blocks

/// How often what was met.
#[derive(Default)]
struct Tally(BTreeMap<String, u64>);

impl Tally {
    fn add(&mut self, what: &str) {
        *self.0.entry(what.to_string()).or_default() += 1;
    }

    /// Without these an agreement could be one about next to nothing.
    fn assert_met(&self, wanted: &[&str], least: u64) {
        println!("{:?}", self.0);
        for what in wanted {
            let met = self.0.get(*what).copied().unwrap_or(0);
            assert!(met >= least, "{what} was met {met} times, wanted {least}");
        }
    }
}

/// Both ledgers, driven by the same lines.
struct Both {
    proved: Program<ProvedLedgers>,
    sound: Program<Sound>,
}

impl Both {
    fn new(start: &Ledger) -> Both {
        Both {
            proved: Program::starting_with(ProvedLedgers, start),
            sound: Program::starting_with(Sound, start),
        }
    }

    fn line(&mut self, line: &[u8], tally: &mut Tally) {
        let before = words_of(self.sound.ledger());
        let (got, expected) = (self.proved.line(line), self.sound.line(line));
        let shown = line.escape_ascii();
        assert_eq!(got, expected, "proved on the left: {shown}");
        let (proved, sound) = (self.proved.ledger(), self.sound.ledger());
        let after = words_of(sound);
        assert!(*proved.0.words() == after, "words differ after {shown}");
        if !line.starts_with(b"block ") || got == "?" {
            return;
        }
        for subscriber in 0..SUBSCRIBERS + 2 {
            let totals = (proved.total(subscriber), sound.total(subscriber));
            assert_eq!(totals.0, totals.1, "total of {subscriber} after {shown}");
        }
        assert_eq!(proved.sum(), sound.sum(), "sum after {shown}");
        tally.add(&got);
        let wrapped = |subscriber: usize| after[2 * subscriber + 1] < before[2 * subscriber + 1];
        if (0..SUBSCRIBERS as usize).any(wrapped) {
            tally.add("wrapped");
        }
    }
}

/// Runs scripts of so many lines until there were enough blocks.
fn compare(lines: u64, script: fn(u64) -> Ledgers) -> Tally {
    let (mut rng, mut tally) = (Rng::new(seed()), Tally::default());
    for _ in 0..blocks().div_ceil(lines) {
        let mut script = script(rng.next_u64());
        let mut both = Both::new(script.start());
        for _ in 0..lines {
            both.line(&script.next_line().0, &mut tally);
        }
    }
    tally
}

/// How often each of what is wanted has to be met at least.
fn least() -> u64 {
    blocks() / 400
}

#[test]
fn random_blocks_from_an_empty_ledger() {
    let tally = compare(2_000, Ledgers::new);
    tally.assert_met(&["ok", "R 40", "R 41", "wrapped"], least());
    assert!(!tally.0.contains_key("R 42"));
}

#[test]
fn random_blocks_from_sums_near_their_end() {
    let tally = compare(FULL_LINES, Ledgers::nearly_full);
    tally.assert_met(&["ok", "R 40", "R 41", "R 42", "wrapped"], least());
}

#[test]
fn random_blocks_from_totals_near_their_end() {
    let tally = compare(FULL_LINES, Ledgers::any_start);
    tally.assert_met(&["ok", "R 40", "R 41", "R 42", "wrapped"], least());
}

/// Readings are true counts modulo 2^32: each total is the bytes that passed since the first
/// reading, and the sum is that of all.
#[test]
fn true_bytes_are_charged_after_every_block() {
    let lists = blocks().div_ceil(LIST_BLOCKS);
    let (mut rng, mut met) = (Rng::new(seed()), Met::default());
    for list in 0..lists {
        let run = ledger_lists::make(&ProvedLedgers, rng.next_u64(), LIST_BLOCKS as usize);
        assert_eq!(run.wrong, None, "list {list} of seed {}", seed());
        met.add(&run.met);
    }
    println!("{met:?}");
    if lists >= 200 {
        assert_eq!(met.missed(&ledger_lists::MET), [""; 0]);
    }
}

/// The answers to the blocks of these tests tell every wrong ledger apart.
#[test]
fn every_faulty_ledger_is_told_apart() {
    let mut scripts = Vec::new();
    for seed in 0..40 {
        scripts.push((Ledgers::nearly_full(seed), FULL_LINES));
        scripts.push((Ledgers::any_start(seed), FULL_LINES));
    }
    scripts.extend((0..4).map(|seed| (Ledgers::new(seed), 3_000)));
    let answered = scripts.into_iter().map(|(mut script, lines)| {
        let start = script.start().clone();
        let mut proved = Program::starting_with(ProvedLedgers, &start);
        let lines = (0..lines).map(|_| {
            let line = script.next_line().0;
            let answer = proved.line(&line);
            (line, answer)
        });
        let lines: Vec<(Vec<u8>, String)> = lines.collect();
        (start, lines)
    });
    let answered: Vec<_> = answered.collect();
    let shows = |fault: Option<LedgerFault>| {
        answered.iter().any(|(start, lines)| {
            let mut faulty = Program::starting_with(FaultyLedgers(fault), start);
            let mut lines = lines.iter();
            lines.any(|(line, answer)| faulty.line(line) != *answer)
        })
    };
    assert!(!shows(None), "without a fault the answers are the same");
    for fault in LedgerFault::ALL {
        assert!(shows(Some(*fault)), "{fault:?}");
    }
}

// ---- any words

/// What a block makes of words.
fn model(words: &Words, block: &[u8]) -> Result<Words, u8> {
    let (readings, []) = block.as_chunks() else {
        return Err(40);
    };
    let mut after = *words;
    for reading in readings {
        let Reading {
            subscriber,
            counter,
        } = Reading::from_bytes(reading);
        if subscriber >= SUBSCRIBERS {
            return Err(41);
        }
        let at = 2 * subscriber as usize;
        let kept = after[at + 1];
        let charge = match kept >> 32 {
            0 => 0,
            _ => u64::from(counter.wrapping_sub(kept as u32)),
        };
        after[at] = after[at].checked_add(charge).ok_or(42u8)?;
        after[SUM] = after[SUM].checked_add(charge).ok_or(42u8)?;
        after[at + 1] = READ | u64::from(counter);
    }
    Ok(after)
}

/// Words of every kind: none, few bits, any, and near the end.
fn any_word(rng: &mut Rng) -> u64 {
    match rng.below(8) {
        0..2 => 0,
        2 => rng.next_u32().into(),
        3 => READ | u64::from(rng.next_u32()),
        4 => u64::from(rng.next_u32()) << 32,
        5 => u64::MAX - u64::from(rng.next_u32()),
        6 => u64::MAX - (u64::from(rng.next_u32()) << 4),
        _ => rng.next_u64(),
    }
}

fn any_words(rng: &mut Rng) -> Words {
    let mut words = [0; LEDGER_WORDS];
    words.fill_with(|| any_word(rng));
    words[SUM] = match rng.below(4) {
        0 => any_word(rng),
        1 => 0,
        2 => (1 << 63) - u64::from(rng.next_u32()),
        _ => u64::MAX - (u64::from(rng.next_u32()) << rng.below(8)),
    };
    words
}

fn any_block(rng: &mut Rng, words: &Words) -> Vec<u8> {
    let count = rng.pick(&[0, 1, 1, 2, 3, 5, 20]);
    let few: Vec<u32> = (0..3).map(|_| rng.next_u32() % SUBSCRIBERS).collect();
    let readings = (0..count).map(|_| {
        let subscriber = match rng.below(40) {
            0 => rng.next_u32(),
            1 => SUBSCRIBERS,
            2..10 => rng.next_u32() % SUBSCRIBERS,
            _ => rng.pick(&few),
        };
        let last = words[2 * (subscriber % SUBSCRIBERS) as usize + 1] as u32;
        let counter = match rng.below(4) {
            0 => last,
            1 => last.wrapping_add(rng.below(2_000) as u32),
            _ => rng.next_u32(),
        };
        Reading {
            subscriber,
            counter,
        }
    });
    let readings: Vec<Reading> = readings.collect();
    let mut block = block_of(&readings);
    if rng.chance(1, 12) {
        block.truncate(rng.below(block.len() + 1));
    }
    block
}

#[test]
fn any_words_are_a_ledger() {
    let (mut rng, mut tally) = (Rng::new(seed()), Tally::default());
    for _ in 0..blocks().div_ceil(WILD_BLOCKS) {
        let mut words = any_words(&mut rng);
        let mut ledger = logwhisker::Ledger::from_words(words);
        for _ in 0..WILD_BLOCKS {
            let block = any_block(&mut rng, &words);
            let expected = model(&words, &block);
            let got = ledger.take(&block).map_err(number_of);
            assert_eq!(got, expected.map(|_| ()), "{block:?}");
            match expected {
                Ok(after) => words = after,
                Err(number) => tally.add(&format!("R {number}")),
            }
            tally.add(if got.is_ok() { "ok" } else { "refused" });
            assert!(*ledger.words() == words, "words differ after {block:?}");
            for subscriber in (0..SUBSCRIBERS + 2).chain([u32::MAX]) {
                let kept = words.as_chunks().0.get(subscriber as usize);
                let read = kept.filter(|[_, kept]| kept >> 32 != 0);
                let total = read.map(|[total, _]| *total);
                assert_eq!(ledger.total(subscriber), total, "{subscriber}");
            }
            assert_eq!(ledger.sum(), words[SUM]);
        }
    }
    tally.assert_met(&["ok", "R 40", "R 41", "R 42"], least());
}

// ---- rule by rule

fn reading(subscriber: u32, counter: u32) -> Reading {
    Reading {
        subscriber,
        counter,
    }
}

/// What a ledger with these words answers to these readings, which leaves all words where it
/// refuses.
fn taken(ledger: &mut logwhisker::Ledger, readings: &[Reading]) -> Result<(), u32> {
    let before = ledger.clone();
    let taken = ledger.take(&block_of(readings)).map_err(Refusal::number);
    assert!(taken.is_ok() || *ledger == before);
    taken
}

/// A ledger of given accounts and a given sum.
fn ledger_with(accounts: &[(u32, u32, u64)], sum: u64) -> logwhisker::Ledger {
    let accounts = accounts.iter().map(|(subscriber, counter, total)| {
        let (counter, total) = (*counter, *total);
        (*subscriber, Account { counter, total })
    });
    let accounts: Vec<(u32, Account)> = accounts.collect();
    let ledger = Ledger::starting_with(&accounts, sum);
    logwhisker::Ledger::from_words(words_of(&ledger))
}

#[test]
fn opening_leaves_nothing_of_what_was() {
    let mut ledger = logwhisker::Ledger::from_words([u64::MAX; LEDGER_WORDS]);
    assert_eq!((ledger.total(0), ledger.sum()), (Some(u64::MAX), u64::MAX));
    ledger.reopen();
    assert_eq!(*ledger.words(), [0; LEDGER_WORDS]);
    assert_eq!(ledger, logwhisker::Ledger::open());
    let unread = (0..SUBSCRIBERS).all(|subscriber| ledger.total(subscriber).is_none());
    assert!(unread && ledger.sum() == 0);
}

#[test]
fn sizes_of_blocks() {
    let mut ledger = logwhisker::Ledger::open();
    // With a subscriber that is not known 40 still comes first.
    for length in 0..200 {
        for byte in [0, 0xff] {
            let whole = match (byte, length) {
                (_, 0) | (0, _) => Ok(()),
                _ => Err(Refusal::UNKNOWN_SUBSCRIBER),
            };
            let due = match length % 8 {
                0 => whole,
                _ => Err(Refusal::NOT_WHOLE_READINGS),
            };
            assert_eq!(ledger.take(&vec![byte; length]), due, "{length} of {byte}");
        }
    }
    assert_eq!((ledger.total(0), ledger.sum()), (Some(0), 0));
}

#[test]
fn first_reading_charges_nothing_and_later_ones_the_difference() {
    let mut ledger = logwhisker::Ledger::open();
    let steps = [
        (u32::MAX - 9, 0),
        (u32::MAX, 9),
        (0, 10),
        (0, 10),
        (5, 15),
        (4, 14 + READ),
        (3, 13 + 2 * READ),
    ];
    for subscriber in [0, 1, 511, 1_023] {
        assert_eq!(ledger.total(subscriber), None);
        for (counter, total) in steps {
            assert_eq!(taken(&mut ledger, &[reading(subscriber, counter)]), Ok(()));
            assert_eq!(ledger.total(subscriber), Some(total));
        }
    }
    assert_eq!(ledger.sum(), 4 * (13 + 2 * READ));
    // The same in one block.
    let mut at_once = logwhisker::Ledger::open();
    let of = |subscriber| steps.map(|(counter, _)| reading(subscriber, counter));
    let readings = [0, 1, 511, 1_023].map(of).concat();
    assert_eq!(taken(&mut at_once, &readings), Ok(()));
    assert_eq!(at_once, ledger);
}

#[test]
fn subscribers_in_and_out_of_range() {
    let mut ledger = logwhisker::Ledger::open();
    let all: Vec<Reading> = (0..SUBSCRIBERS).map(|of| reading(of, of)).collect();
    assert_eq!(taken(&mut ledger, &all), Ok(()));
    let unknown = [1_024, 1_025, 2_047, 65_536, 1 << 24, 1 << 31, u32::MAX];
    for subscriber in unknown {
        for readings in [
            vec![reading(subscriber, 7)],
            vec![reading(3, 7), reading(subscriber, 7)],
            vec![reading(subscriber, 7), reading(3, 7)],
        ] {
            assert_eq!(taken(&mut ledger, &readings), Err(41), "{readings:?}");
        }
        assert_eq!(ledger.total(subscriber), None);
    }
    assert!((0..SUBSCRIBERS).all(|subscriber| ledger.total(subscriber) == Some(0)));
}

/// A total and the sum hold all of 64 bits, and not one byte more.
#[test]
fn the_most_that_totals_and_sums_hold() {
    let most = u64::MAX;
    for (total, sum, what) in [
        (most - 10, 0, "total"),
        (0, most - 10, "sum"),
        (most - 10, most - 10, "both"),
    ] {
        let start = ledger_with(&[(7, 100, total)], sum);
        let mut ledger = start.clone();
        assert_eq!(taken(&mut ledger, &[reading(7, 111)]), Err(42), "{what}");
        assert_eq!(taken(&mut ledger, &[reading(7, 99)]), Err(42), "{what}");
        assert_eq!(taken(&mut ledger, &[reading(7, 110)]), Ok(()), "{what}");
        assert_eq!(ledger.total(7), Some(total + 10), "{what}");
        assert_eq!(ledger.sum(), sum + 10, "{what}");
        assert_eq!(taken(&mut ledger, &[reading(7, 110)]), Ok(()), "{what}");
        assert_eq!(taken(&mut ledger, &[reading(7, 111)]), Err(42), "{what}");
        // Only the readings of one block together are too many.
        let mut ledger = start.clone();
        let readings = [104, 108, 112].map(|counter| reading(7, counter));
        assert_eq!(taken(&mut ledger, &readings), Err(42), "{what}");
        assert_eq!(taken(&mut ledger, &readings[..2]), Ok(()), "{what}");
        // A first reading charges nothing.
        assert_eq!(taken(&mut ledger, &[reading(8, 5_000)]), Ok(()), "{what}");
    }
}

#[test]
fn the_first_fault_of_a_block_is_told() {
    let start = ledger_with(&[(7, 0, 0)], u64::MAX);
    let (good, unknown, over) = (reading(7, 0), reading(1_024, 0), reading(7, 1));
    // Its lower bits are those of subscriber 7, whose sum would be over.
    let both = reading(1_024 + 7, 1);
    for (readings, due) in [
        (vec![good, unknown, over], Err(41)),
        (vec![good, over, unknown], Err(42)),
        (vec![over, unknown], Err(42)),
        (vec![unknown, over], Err(41)),
        (vec![both], Err(41)),
        (vec![good, both, over], Err(41)),
        (vec![good, reading(9, 1), reading(9, 1), over], Err(42)),
        (vec![good, reading(9, 1), good], Ok(())),
    ] {
        let mut ledger = start.clone();
        assert_eq!(taken(&mut ledger, &readings), due, "{readings:?}");
        if due.is_err() {
            assert_eq!(ledger.total(9), None);
            let mut cut = block_of(&readings);
            cut.push(0);
            assert_eq!(ledger.take(&cut), Err(Refusal::NOT_WHOLE_READINGS));
            assert_eq!(ledger, start);
        }
    }
}
