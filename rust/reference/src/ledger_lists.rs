//! Lists of blocks for a ledger, read off meters whose true counts are known. After every
//! block, what the rules claim of the totals and of their sum is held against those counts
//! and against the differences of all accepted readings.

use crate::ends::{Ends, LedgerEnd};
use crate::ledger::{Account, Ledger, READING, Reading, SUBSCRIBERS};
use crate::refusal;
use crate::rng::Rng;
use crate::script::Ledgers;
use crate::table_lists::Met;
use std::collections::{BTreeMap, BTreeSet};

pub mod delivered;
mod meters;

pub use meters::{Block, Meters, TrueReading};

/// What does not hold after a block.
#[derive(Clone, Copy, Debug, PartialEq, Eq)]
pub enum Wrong {
    /// The block got another answer than is due.
    Answer(Result<(), u8>, Result<(), u8>),
    /// The sum is not that of the differences over all accepted blocks.
    SumOfCharges,
    /// The sum is not that of all totals.
    SumOfTotals,
    /// The subscriber's total is not its true bytes from the first accepted reading to the
    /// last.
    Total(u32),
    /// Memory does not have the block that the card sent.
    Bytes,
    /// Blocks were delivered, and what their readings counted is not all charged.
    Delivered,
}

/// What the accepted readings of a subscriber truly counted.
#[derive(Clone, Copy, Debug, PartialEq, Eq)]
struct Span {
    /// The total at the start, of an account that was there.
    base: u64,
    first: u64,
    last: u64,
}

impl Span {
    /// It has a sign because a list may break the premises.
    fn total(self) -> i128 {
        i128::from(self.base) + i128::from(self.last) - i128::from(self.first)
    }
}

/// A ledger under audit.
#[derive(Clone, Debug)]
pub struct Audit<L> {
    ledger: L,
    /// By subscriber, those that were read.
    spans: BTreeMap<u32, Span>,
    /// The sum of all totals by the true counts.
    sum: i128,
    /// The last counters of accepted readings, and what their differences sum to.
    counters: BTreeMap<u32, u32>,
    charged: u128,
}

impl<L: LedgerEnd> Audit<L> {
    /// A ledger that starts as told; each account's counter was its meter's count.
    pub fn new(ledger: L, start: &Ledger, meters: &Meters) -> Audit<L> {
        let accounts = (0..SUBSCRIBERS).filter_map(|who| Some((who, start.account(who)?)));
        let accounts: BTreeMap<u32, Account> = accounts.collect();
        let spans = accounts.iter().map(|(&who, account)| {
            let count = meters.count(who).expect("its meter is known");
            let base = account.total;
            (
                who,
                Span {
                    base,
                    first: count,
                    last: count,
                },
            )
        });
        let counters = accounts
            .iter()
            .map(|(&who, account)| (who, account.counter));
        Audit {
            ledger,
            spans: spans.collect(),
            sum: start.sum().into(),
            counters: counters.collect(),
            charged: start.sum().into(),
        }
    }

    /// Has the ledger take a block, and gives its answer unless something is wrong then.
    pub fn take(&mut self, block: &Block) -> Result<Result<(), u8>, Wrong> {
        let due = self.due(block);
        let answer = self.ledger.take(&block.bytes);
        match due {
            Ok((spans, sum)) if answer.is_ok() => {
                (self.spans, self.sum) = (spans, sum);
                self.charge(&block.bytes);
            }
            Err(number) if answer == Err(number) => {}
            _ => return Err(Wrong::Answer(due.map(|_| ()), answer)),
        }
        self.check()?;
        Ok(answer)
    }

    /// What is due to a block by what its readings truly counted.
    fn due(&self, block: &Block) -> Result<(BTreeMap<u32, Span>, i128), u8> {
        if !block.bytes.len().is_multiple_of(READING) {
            return Err(refusal::BLOCK_SIZE);
        }
        let (mut spans, mut sum) = (self.spans.clone(), self.sum);
        for &TrueReading { subscriber, count } in &block.readings {
            if subscriber >= SUBSCRIBERS {
                return Err(refusal::SUBSCRIBER_UNKNOWN);
            }
            let first = Span {
                base: 0,
                first: count,
                last: count,
            };
            let span = spans.entry(subscriber).or_insert(first);
            sum += i128::from(count) - i128::from(span.last);
            span.last = count;
            // No total is more than the sum.
            if sum > i128::from(u64::MAX) {
                return Err(refusal::TOTAL_OVERFLOW);
            }
        }
        Ok((spans, sum))
    }

    /// The differences of an accepted block's readings, from its bytes only.
    fn charge(&mut self, block: &[u8]) {
        let (readings, _) = block.as_chunks();
        for reading in readings {
            let Reading {
                subscriber,
                counter,
            } = Reading::from_bytes(reading);
            let last = self.counters.insert(subscriber, counter);
            let passed = counter.wrapping_sub(last.unwrap_or(counter));
            self.charged += u128::from(passed);
        }
    }

    fn check(&self) -> Result<(), Wrong> {
        let sum = u128::from(self.ledger.sum());
        if sum != self.charged {
            return Err(Wrong::SumOfCharges);
        }
        let mut totals = 0;
        for subscriber in 0..SUBSCRIBERS {
            let total = self.ledger.total(subscriber);
            totals += u128::from(total.unwrap_or(0));
            let due = self.spans.get(&subscriber).map(|span| span.total());
            if total.map(i128::from) != due {
                return Err(Wrong::Total(subscriber));
            }
        }
        if sum != totals {
            return Err(Wrong::SumOfTotals);
        }
        Ok(())
    }

    /// The true count at the last accepted reading of each subscriber.
    pub fn lasts(&self) -> BTreeMap<u32, u64> {
        let spans = self.spans.iter();
        spans.map(|(who, span)| (*who, span.last)).collect()
    }

    /// The ledger.
    pub fn ledger(&self) -> &L {
        &self.ledger
    }
}

/// What such lists have to meet.
pub const MET: [&str; 12] = [
    "a block taken",
    "an empty block",
    "refusal 40",
    "refusal 41",
    "refusal 42",
    "a counter that wraps",
    "a counter that stands",
    "a difference of 2^32 - 1",
    "a subscriber several times in a block",
    "a first reading that is refused",
    "a true count past 2^33 from the first one",
    "a sum of 2^64 - 1",
];

/// A list that was made and what came of it.
#[derive(Clone, Debug)]
pub struct Run {
    /// The ledger at the start.
    pub start: Ledger,
    /// The meters at the start.
    pub meters: Meters,
    /// Its blocks, the last of which may have shown something wrong.
    pub blocks: Vec<Block>,
    /// What they have met.
    pub met: Met,
    /// What was wrong after the last one.
    pub wrong: Option<Wrong>,
}

/// Makes a list of so many blocks for a ledger of these ends. One in four starts with a
/// ledger that is nearly full.
pub fn make<E: Ends>(ends: &E, seed: u64, blocks: usize) -> Run {
    let mut rng = Rng::new(seed);
    let start = match rng.below(4) {
        0 => Ledgers::nearly_full(rng.next_u64()).start().clone(),
        _ => Ledger::open(),
    };
    let mut meters = Meters::new(&mut rng, &start, |_| true);
    let mut audit = Audit::new(ends.open_ledger(&start), &start, &meters);
    let mut run = Run {
        start,
        meters: meters.clone(),
        blocks: Vec::new(),
        met: Met::default(),
        wrong: None,
    };
    while run.blocks.len() < blocks && run.wrong.is_none() {
        let cut = match rng.below(12) {
            0 => rng.between(1, READING - 1),
            _ => 0,
        };
        let readings = match rng.below(30) {
            0 => 183,
            1 | 2 => 0,
            _ => rng.between(1, 12),
        };
        let block = meters.block(READING * readings + cut, |_| false);
        let before = audit.counters.clone();
        match audit.take(&block) {
            Ok(answer) => {
                meters.keep(audit.lasts());
                note(&mut run.met, &block, answer, &before);
            }
            Err(wrong) => run.wrong = Some(wrong),
        }
        let grown = |span: &Span| span.last - span.first > 1 << 33;
        let far = audit.spans.values().any(grown);
        let full = audit.ledger.sum() == u64::MAX;
        run.met
            .count("a true count past 2^33 from the first one", far);
        run.met.count("a sum of 2^64 - 1", full);
        run.blocks.push(block);
    }
    run
}

fn note(met: &mut Met, block: &Block, answer: Result<(), u8>, before: &BTreeMap<u32, u32>) {
    let refused = |number| answer == Err(number);
    met.count("a block taken", answer.is_ok());
    met.count("an empty block", answer.is_ok() && block.bytes.is_empty());
    met.count("refusal 40", refused(refusal::BLOCK_SIZE));
    met.count("refusal 41", refused(refusal::SUBSCRIBER_UNKNOWN));
    met.count("refusal 42", refused(refusal::TOTAL_OVERFLOW));
    let mut counters = before.clone();
    let mut seen = BTreeSet::new();
    let mut several = false;
    for reading in &block.readings {
        let TrueReading { subscriber, .. } = *reading;
        let counter = reading.reading().counter;
        let first = subscriber < SUBSCRIBERS && !counters.contains_key(&subscriber);
        met.count("a first reading that is refused", first && answer.is_err());
        if answer.is_ok()
            && let Some(last) = counters.insert(subscriber, counter)
        {
            met.count("a counter that wraps", counter < last);
            met.count("a counter that stands", counter == last);
            let most = counter.wrapping_sub(last) == u32::MAX;
            met.count("a difference of 2^32 - 1", most);
        }
        several |= !seen.insert(subscriber);
    }
    let several = several && answer.is_ok();
    met.count("a subscriber several times in a block", several);
}

/// Runs given blocks on a ledger of these ends, and gives the answers up to what is wrong.
/// The meters stood as told when the accounts of the start were read.
pub fn check<E: Ends>(
    ends: &E,
    start: &Ledger,
    meters: &Meters,
    blocks: &[Block],
) -> Result<Vec<Result<(), u8>>, Wrong> {
    let mut audit = Audit::new(ends.open_ledger(start), start, meters);
    blocks.iter().map(|block| audit.take(block)).collect()
}
