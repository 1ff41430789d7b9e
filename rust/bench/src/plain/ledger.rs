//! A ledger as one writes it for speed: accounts in one row of 16 KiB, and a block that is
//! looked through for refusals once before it is charged without any. It gives the same
//! answers as the reference, which a test beside it compares.

/// Bytes of a reading: subscriber and counter, 4 bytes each.
const READING: usize = 8;
const SUBSCRIBERS: usize = 1_024;

/// What is kept of a subscriber.
#[derive(Clone, Copy, Default)]
struct Account {
    total: u64,
    counter: u32,
    /// All bits are set once it was read, and none before, so that a first reading charges 0.
    read: u32,
}

/// The ledger.
pub struct Ledger {
    accounts: Box<[Account; SUBSCRIBERS]>,
    /// That of all totals, so no total is over before it.
    sum: u64,
}

impl Ledger {
    /// A ledger in which nobody was read.
    pub fn open() -> Ledger {
        Ledger {
            accounts: Box::new([Account::default(); SUBSCRIBERS]),
            sum: 0,
        }
    }

    /// Goes on with a subscriber's last counter and a total that the sum has room for.
    pub fn put(&mut self, subscriber: u32, counter: u32, total: u64) {
        let account = &mut self.accounts[subscriber as usize];
        self.sum = self.sum - account.total + total;
        *account = Account {
            total,
            counter,
            read: u32::MAX,
        };
    }

    /// Takes a block of readings, whole or not at all.
    #[inline]
    pub fn take(&mut self, block: &[u8]) -> Result<(), u8> {
        let (readings, []) = block.as_chunks() else {
            return Err(40);
        };
        if !self.has_room(readings.len()) {
            return self.take_with_little_room(readings);
        }
        // Without 42 the only fault is a subscriber with one of the high bits.
        let subscribers = readings.iter().map(|reading| parts(reading).0);
        if subscribers.fold(0, |bits, subscriber| bits | subscriber) >= SUBSCRIBERS as u32 {
            return Err(41);
        }
        let mut sum = self.sum;
        for reading in readings {
            let (subscriber, counter) = parts(reading);
            let account = &mut self.accounts[subscriber as usize % SUBSCRIBERS];
            let passed = u64::from(counter.wrapping_sub(account.counter) & account.read);
            *account = Account {
                total: account.total + passed,
                counter,
                read: u32::MAX,
            };
            sum += passed;
        }
        self.sum = sum;
        Ok(())
    }

    /// Whether the sum has room for so many readings, whatever they are.
    fn has_room(&self, readings: usize) -> bool {
        let most = (readings as u64).checked_mul(u32::MAX.into());
        most.is_some_and(|most| most <= u64::MAX - self.sum)
    }

    /// Reading by reading; what was charged before a fault is put back.
    #[cold]
    fn take_with_little_room(&mut self, readings: &[[u8; READING]]) -> Result<(), u8> {
        let before = self.sum;
        let mut undo = Vec::with_capacity(readings.len());
        for reading in readings {
            let (subscriber, counter) = parts(reading);
            let charged = self.charge(subscriber, counter);
            match charged {
                Ok(account) => undo.push((subscriber, account)),
                Err(number) => {
                    for (subscriber, account) in undo.into_iter().rev() {
                        self.accounts[subscriber as usize] = account;
                    }
                    self.sum = before;
                    return Err(number);
                }
            }
        }
        Ok(())
    }

    /// Charges one reading, and gives the account as it was before.
    fn charge(&mut self, subscriber: u32, counter: u32) -> Result<Account, u8> {
        let account = self.accounts.get_mut(subscriber as usize).ok_or(41)?;
        let before = *account;
        let passed = u64::from(counter.wrapping_sub(before.counter) & before.read);
        self.sum = self.sum.checked_add(passed).ok_or(42)?;
        *account = Account {
            total: before.total + passed,
            counter,
            read: u32::MAX,
        };
        Ok(before)
    }

    /// A subscriber's total, if it was ever read.
    pub fn total(&self, subscriber: u32) -> Option<u64> {
        let account = self.accounts.get(subscriber as usize)?;
        (account.read != 0).then_some(account.total)
    }

    /// The sum of all totals.
    pub fn sum(&self) -> u64 {
        self.sum
    }
}

/// A reading's subscriber and counter.
#[inline]
fn parts(reading: &[u8; READING]) -> (u32, u32) {
    let word = u64::from_le_bytes(*reading);
    (word as u32, (word >> 32) as u32)
}
