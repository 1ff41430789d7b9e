//! What subscribers are charged: blocks of counter readings become totals of 64 bits, and one
//! sum of them all. A block that is refused changes nothing.

use crate::raw::{self, LEDGER_WORDS};
use crate::refusal::Refusal;

/// A ledger of 1,024 subscribers.
///
/// ```
/// use logwhisker::{Ledger, Refusal};
///
/// let mut ledger = Ledger::open();
/// let reading = |subscriber: u32, counter: u32| {
///     [subscriber.to_le_bytes(), counter.to_le_bytes()].concat()
/// };
/// ledger.take(&reading(7, 4_294_967_290))?;
/// ledger.take(&reading(7, 10))?;
/// assert_eq!(ledger.total(7), Some(16));
/// assert_eq!(ledger.take(&reading(1_024, 0)), Err(Refusal::UNKNOWN_SUBSCRIBER));
/// assert_eq!(ledger.sum(), 16);
/// # Ok::<(), Refusal>(())
/// ```
#[derive(Clone, Debug, PartialEq, Eq)]
pub struct Ledger {
    words: Box<[u64; LEDGER_WORDS]>,
}

impl Ledger {
    /// An empty ledger: no subscriber was read.
    pub fn open() -> Ledger {
        let mut ledger = Ledger {
            words: Box::new([0; LEDGER_WORDS]),
        };
        ledger.reopen();
        ledger
    }

    /// Starts anew.
    pub fn reopen(&mut self) {
        raw::ledger_open(&mut self.words);
    }

    /// Takes a block of readings of 8 bytes: subscriber and counter, 4 bytes each, little
    /// endian. Refused if its size is no multiple of 8; else for the first reading whose
    /// subscriber is not below 1,024 or by which a total or the sum would pass 64 bits.
    pub fn take(&mut self, block: &[u8]) -> Result<(), Refusal> {
        Refusal::check(raw::ledger_take(&mut self.words, block))
    }

    /// The bytes that are charged to a subscriber, if it was ever read.
    pub fn total(&self, subscriber: u32) -> Option<u64> {
        let mut total = 0;
        let read = raw::ledger_total(&self.words, subscriber, &mut total);
        (read != 0).then_some(total)
    }

    /// The bytes that are charged to all subscribers together.
    pub fn sum(&self) -> u64 {
        raw::ledger_sum(&self.words)
    }

    /// The ledger that these words are; any words are one.
    pub fn from_words(words: [u64; LEDGER_WORDS]) -> Ledger {
        Ledger {
            words: Box::new(words),
        }
    }

    /// The words of the ledger, to be kept and not to be looked into.
    pub fn words(&self) -> &[u64; LEDGER_WORDS] {
        &self.words
    }
}

impl Default for Ledger {
    fn default() -> Ledger {
        Ledger::open()
    }
}
