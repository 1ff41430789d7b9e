//! Ledgers with a fault. They keep an account for each subscriber in a row, beside the
//! reference's ledger, so that without a fault the two can be compared.

use crate::card::Card;
use crate::ends::{Ends, LedgerEnd, Sound, Start};
use crate::host::Host;
use crate::ledger::{Ledger, READING, Reading, SUBSCRIBERS};
use crate::refusal;
use crate::table::Table;

/// Who finds a ledger's fault.
#[derive(Clone, Copy, Debug, PartialEq, Eq)]
pub enum LedgerFoundBy {
    /// Lists of blocks whose readings are true counts.
    TrueCounts,
    /// A comparison of answers only.
    Comparison,
    /// A comparison of answers from a start that no blocks lead to.
    AnyStart,
}

macro_rules! ledger_faults {
    ($($(#[$doc:meta])* $name:ident => $found:ident,)*) => {
        /// What a ledger may get wrong.
        #[derive(Clone, Copy, Debug, PartialEq, Eq)]
        pub enum LedgerFault {
            $($(#[$doc])* $name,)*
        }

        impl LedgerFault {
            /// All of them.
            pub const ALL: &[LedgerFault] = &[$(LedgerFault::$name,)*];

            /// Who has to find it.
            pub fn found_by(self) -> LedgerFoundBy {
                match self {
                    $(LedgerFault::$name => LedgerFoundBy::$found,)*
                }
            }
        }
    };
}

ledger_faults! {
    /// A counter below the last one charges nothing.
    SaturatingDifference => TrueCounts,
    /// A counter below the last one takes the difference away.
    SignedDifference => TrueCounts,
    /// A first reading is charged as if the last one had been 0.
    ChargesFirst => TrueCounts,
    /// The readings before the fault of a refused block stay charged.
    KeepsRefused => TrueCounts,
    /// The counters of a refused block stay, and its charges do not.
    KeepsRefusedCounters => TrueCounts,
    /// A charge leaves the counter as it was.
    KeepsFirstCounter => TrueCounts,
    /// A reading of more than half of all counts past the last one is passed over as a late
    /// one.
    PassesOverLate => TrueCounts,
    /// The sum wraps.
    SumWraps => TrueCounts,
    /// A total is charged once for a block, from the last counter before it to the last one
    /// in it.
    ChargesBlockOnce => TrueCounts,
    /// A total wraps. Where the sum is that of all totals it is over before.
    TotalWraps => AnyStart,
    /// 42 comes before 41, for the account that the low ten bits of a subscriber name.
    OverflowBeforeUnknown => Comparison,
    /// A block is searched for unknown subscribers before any reading is charged.
    UnknownOfAllFirst => Comparison,
    /// The last fault is told.
    TellsLastFault => Comparison,
    /// 40 comes after 41 and 42.
    SizeLast => Comparison,
    /// A cut reading at the end of a block is passed over.
    PassesOverCut => Comparison,
    /// A block of no readings gets 40.
    RefusesEmpty => Comparison,
    /// Subscriber 1,024 is taken for 1,023.
    OneSubscriberMore => Comparison,
    /// The last subscriber gets 41.
    OneSubscriberLess => Comparison,
    /// Only the low two bytes of a subscriber count.
    SubscriberIn16Bits => Comparison,
    /// A reading's numbers have their high byte first.
    HighByteFirst => Comparison,
    /// The largest sum of 64 bits is over.
    FullOneEarly => Comparison,
}

/// Ledgers with this fault, or with none, and the reference's other ends.
#[derive(Clone, Copy, Debug, PartialEq, Eq)]
pub struct FaultyLedgers(pub Option<LedgerFault>);

impl Ends for FaultyLedgers {
    type Card = Card;
    type Host = Host;
    type Table = Table;
    type Ledger = FaultyLedger;

    fn open_card(
        &self,
        own: u16,
        peer: u16,
        limit: usize,
        slots: &[u8],
        start: Start,
    ) -> (Card, Option<u8>) {
        Sound.open_card(own, peer, limit, slots, start)
    }

    fn open_host(&self, own: u16, peer: u16, start: Start) -> (Host, Option<u8>) {
        Sound.open_host(own, peer, start)
    }

    fn open_table(&self, own: u16) -> (Table, Option<u8>) {
        Sound.open_table(own)
    }

    fn open_ledger(&self, start: &Ledger) -> FaultyLedger {
        let accounts = (0..SUBSCRIBERS).map(|subscriber| {
            let account = start.account(subscriber)?;
            Some((account.counter, account.total))
        });
        FaultyLedger {
            fault: self.0,
            accounts: accounts.collect(),
            sum: start.sum(),
        }
    }
}

/// A ledger with a fault, or with none.
#[derive(Clone, Debug)]
pub struct FaultyLedger {
    fault: Option<LedgerFault>,
    /// The last counter and the total of each subscriber that was read.
    accounts: Vec<Option<(u32, u64)>>,
    sum: u64,
}

impl FaultyLedger {
    fn has(&self, fault: LedgerFault) -> bool {
        self.fault == Some(fault)
    }

    fn size_fault(&self, block: &[u8]) -> Result<(), u8> {
        let refused = match self.fault {
            Some(LedgerFault::PassesOverCut) => false,
            Some(LedgerFault::RefusesEmpty) if block.is_empty() => true,
            _ => !block.len().is_multiple_of(READING),
        };
        if refused {
            return Err(refusal::BLOCK_SIZE);
        }
        Ok(())
    }

    fn readings(&self, block: &[u8]) -> Vec<Reading> {
        let (readings, _) = block.as_chunks();
        let readings = readings.iter().map(Reading::from_bytes);
        let readings = readings.map(|reading| match self.fault {
            Some(LedgerFault::HighByteFirst) => Reading {
                subscriber: reading.subscriber.swap_bytes(),
                counter: reading.counter.swap_bytes(),
            },
            Some(LedgerFault::SubscriberIn16Bits) => Reading {
                subscriber: reading.subscriber % (1 << 16),
                ..reading
            },
            Some(LedgerFault::OneSubscriberMore) if reading.subscriber == SUBSCRIBERS => Reading {
                subscriber: SUBSCRIBERS - 1,
                ..reading
            },
            _ => reading,
        });
        readings.collect()
    }

    fn is_known(&self, subscriber: u32) -> bool {
        let least = u32::from(self.has(LedgerFault::OneSubscriberLess));
        subscriber < SUBSCRIBERS - least
    }

    fn passed(&self, last: u32, counter: u32) -> i64 {
        let plain = i64::from(counter) - i64::from(last);
        match self.fault {
            Some(LedgerFault::SaturatingDifference) => plain.max(0),
            Some(LedgerFault::SignedDifference) => plain,
            _ => i64::from(counter.wrapping_sub(last)),
        }
    }

    /// The total and the sum with these bytes added.
    fn added(&self, total: u64, passed: i64) -> Result<(u64, u64), u8> {
        let fitting = |number: u64, wraps: bool| match number.checked_add_signed(passed) {
            Some(u64::MAX) if self.has(LedgerFault::FullOneEarly) && passed != 0 => None,
            None if wraps => Some(number.wrapping_add_signed(passed)),
            fits => fits,
        };
        let total = fitting(total, self.has(LedgerFault::TotalWraps));
        let sum = fitting(self.sum, self.has(LedgerFault::SumWraps));
        total.zip(sum).ok_or(refusal::TOTAL_OVERFLOW)
    }

    fn charge(&mut self, reading: Reading, before: &FaultyLedger) -> Result<(), u8> {
        let Reading {
            subscriber,
            counter,
        } = reading;
        let index = (subscriber % SUBSCRIBERS) as usize;
        let account = self.accounts[index];
        let charged = match account {
            None if self.has(LedgerFault::ChargesFirst) => self.added(0, counter.into()),
            None => Ok((0, self.sum)),
            Some((last, total)) => self.added(total, self.passed(last, counter)),
        };
        let told_first = self.has(LedgerFault::OverflowBeforeUnknown) && charged.is_err();
        if !self.is_known(subscriber) && !told_first {
            return Err(refusal::SUBSCRIBER_UNKNOWN);
        }
        let (mut total, sum) = charged?;
        let mut last = counter;
        match (self.fault, account) {
            (Some(LedgerFault::KeepsFirstCounter), Some((first, _))) => last = first,
            (Some(LedgerFault::PassesOverLate), Some((last, _)))
                if counter.wrapping_sub(last) > 1 << 31 =>
            {
                return Ok(());
            }
            (Some(LedgerFault::ChargesBlockOnce), Some(_)) => {
                if let Some((last, before)) = before.accounts[index] {
                    total = before.saturating_add_signed(self.passed(last, counter));
                }
            }
            _ => {}
        }
        self.accounts[index] = Some((last, total));
        self.sum = sum;
        Ok(())
    }

    fn charge_all(&mut self, block: &[u8]) -> Result<(), u8> {
        let (readings, before) = (self.readings(block), self.clone());
        let unknown = |reading: &Reading| !self.is_known(reading.subscriber);
        if self.has(LedgerFault::UnknownOfAllFirst) && readings.iter().any(unknown) {
            return Err(refusal::SUBSCRIBER_UNKNOWN);
        }
        let mut found = Ok(());
        for reading in readings {
            if let Err(number) = self.charge(reading, &before) {
                found = Err(number);
                if !self.has(LedgerFault::TellsLastFault) {
                    break;
                }
            }
        }
        found
    }
}

impl LedgerEnd for FaultyLedger {
    fn take(&mut self, block: &[u8]) -> Result<(), u8> {
        let before = self.clone();
        let size = self.size_fault(block);
        if !self.has(LedgerFault::SizeLast) {
            size?;
        }
        let result = self.charge_all(block).and(size);
        if result.is_ok() || self.has(LedgerFault::KeepsRefused) {
            return result;
        }
        let counters = std::mem::replace(&mut self.accounts, before.accounts);
        self.sum = before.sum;
        if self.has(LedgerFault::KeepsRefusedCounters) {
            for (account, tried) in self.accounts.iter_mut().zip(counters) {
                if let (Some((counter, _)), Some((tried, _))) = (account, tried) {
                    *counter = tried;
                }
            }
        }
        result
    }

    fn total(&self, subscriber: u32) -> Option<u64> {
        let account = self.accounts.get(subscriber as usize)?;
        account.map(|(_, total)| total)
    }

    fn sum(&self) -> u64 {
        self.sum
    }
}
