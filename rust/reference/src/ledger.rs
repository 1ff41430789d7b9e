//! The ledger above the host: what the readings of each subscriber add up to. It takes
//! blocks of readings, each one whole or not at all. It knows nothing of frames, and a
//! block is any bytes that it is given.

use crate::refusal;
use std::collections::BTreeMap;

/// The subscribers are the numbers below this one.
pub const SUBSCRIBERS: u32 = 1_024;
/// Bytes of a reading.
pub const READING: usize = 8;
/// How many values a counter has before it is 0 again.
const COUNTS: u64 = 1 << 32;

/// What a meter showed: a subscriber and a counter, 4 bytes each, little endian.
#[derive(Clone, Copy, Debug, PartialEq, Eq, Hash)]
pub struct Reading {
    /// Whose it is; any number, also one that no subscriber has.
    pub subscriber: u32,
    /// The bytes counted, modulo 2^32.
    pub counter: u32,
}

impl Reading {
    /// Reads a reading.
    pub fn from_bytes(bytes: &[u8; READING]) -> Reading {
        let [a, b, c, d, e, f, g, h] = *bytes;
        Reading {
            subscriber: u32::from_le_bytes([a, b, c, d]),
            counter: u32::from_le_bytes([e, f, g, h]),
        }
    }

    /// Its bytes.
    pub fn to_bytes(self) -> [u8; READING] {
        let [a, b, c, d] = self.subscriber.to_le_bytes();
        let [e, f, g, h] = self.counter.to_le_bytes();
        [a, b, c, d, e, f, g, h]
    }
}

/// The block of these readings.
pub fn block_of(readings: &[Reading]) -> Vec<u8> {
    readings
        .iter()
        .flat_map(|reading| reading.to_bytes())
        .collect()
}

/// A subscriber that was read.
#[derive(Clone, Copy, Debug, PartialEq, Eq, Hash)]
pub struct Account {
    /// The last counter.
    pub counter: u32,
    /// The bytes charged so far.
    pub total: u64,
}

/// The ledger.
#[derive(Clone, Debug, Default, PartialEq, Eq)]
pub struct Ledger {
    /// By subscriber; one that was never read has none.
    accounts: BTreeMap<u32, Account>,
    /// The sum of all totals.
    sum: u64,
}

impl Ledger {
    /// A ledger in which nobody was read.
    pub fn open() -> Ledger {
        Ledger::default()
    }

    /// A ledger that goes on with these accounts and this sum. Blocks take too long to get
    /// a sum near its end. Where the sum is another than that of the totals, the ledger is
    /// one that no blocks lead to.
    pub fn starting_with(accounts: &[(u32, Account)], sum: u64) -> Ledger {
        let known = |(subscriber, _): &(u32, Account)| *subscriber < SUBSCRIBERS;
        assert!(accounts.iter().all(known), "a ledger has no such account");
        Ledger {
            accounts: accounts.iter().copied().collect(),
            sum,
        }
    }

    /// Takes a block: any bytes. One that is refused changes nothing, so the readings go to
    /// a copy first.
    pub fn take(&mut self, block: &[u8]) -> Result<(), u8> {
        let (readings, []) = block.as_chunks() else {
            return Err(refusal::BLOCK_SIZE);
        };
        let mut after = self.clone();
        for reading in readings {
            after.charge(Reading::from_bytes(reading))?;
        }
        *self = after;
        Ok(())
    }

    /// Takes one reading; one that is refused changes nothing.
    pub(crate) fn charge(&mut self, reading: Reading) -> Result<(), u8> {
        let Reading {
            subscriber,
            counter,
        } = reading;
        if subscriber >= SUBSCRIBERS {
            return Err(refusal::SUBSCRIBER_UNKNOWN);
        }
        let Some(account) = self.accounts.get_mut(&subscriber) else {
            let first = Account { counter, total: 0 };
            self.accounts.insert(subscriber, first);
            return Ok(());
        };
        let passed = difference(account.counter, counter);
        let total = plus(account.total, passed)?;
        self.sum = plus(self.sum, passed)?;
        *account = Account { counter, total };
        Ok(())
    }

    /// A subscriber's total, if it was ever read. A number that no subscriber has never is.
    pub fn total(&self, subscriber: u32) -> Option<u64> {
        self.account(subscriber).map(|account| account.total)
    }

    /// A subscriber's account, if it was ever read.
    pub fn account(&self, subscriber: u32) -> Option<Account> {
        self.accounts.get(&subscriber).copied()
    }

    /// The sum of all totals.
    pub fn sum(&self) -> u64 {
        self.sum
    }
}

/// The bytes that passed between two readings of a meter, modulo 2^32.
pub fn difference(from: u32, to: u32) -> u32 {
    let passed = (COUNTS + u64::from(to) - u64::from(from)) % COUNTS;
    passed as u32
}

/// A total or a sum with these bytes added, unless that takes more than 64 bits.
fn plus(total: u64, passed: u32) -> Result<u64, u8> {
    let total = u128::from(total) + u128::from(passed);
    u64::try_from(total).map_err(|_| refusal::TOTAL_OVERFLOW)
}

#[cfg(test)]
mod tests;
