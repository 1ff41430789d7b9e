//! A card as one writes it for speed: state in place, marks in single words, messages put
//! straight into their slot. It gives the same answers as the reference for every run from
//! a fresh start, which a test beside it compares. A call gives 0 or the refusal's number.

use super::host::{FRAME_HEADER, LONGEST_FRAME, MESSAGE_HEADER, copy, is_whole, next_header};

const LEAST_LIMIT: usize = FRAME_HEADER + MESSAGE_HEADER;
const SLOTS: usize = 64;
const TRANSACTIONS: u32 = 32;

/// A transaction that was opened.
#[derive(Clone, Copy, Default)]
struct Entry {
    address: u32,
    value: u32,
    count: u16,
    /// Messages still to be added.
    left: u16,
    /// The frame that holds the latest message.
    latest: u16,
}

/// The card's end of a pair.
pub struct Card {
    own: u16,
    peer: u16,
    limit: usize,
    /// The length of the frame being built, or 0, and where its last header stands.
    used: usize,
    last: usize,
    /// The number of the frame being built, and the lowest one not released.
    next: u16,
    base: u16,
    /// Bit i is set if `base + i` is acknowledged.
    acknowledged: u64,
    next_transaction: u32,
    lowest: u32,
    /// By the place of a transaction: all messages are added and not all released; and
    /// finished, but not the lowest.
    filled: u32,
    finished: u32,
    lengths: [u16; SLOTS],
    table: [Entry; TRANSACTIONS as usize],
}

impl Card {
    /// A fresh end, or the refusal.
    pub fn open(own: u16, peer: u16, limit: usize, slots: &[u8]) -> Result<Card, u32> {
        if own == 0 || peer == 0 {
            return Err(13);
        }
        let card = Card {
            own,
            peer,
            limit,
            used: 0,
            last: 0,
            next: 0,
            base: 0,
            acknowledged: 0,
            next_transaction: 0,
            lowest: 0,
            filled: 0,
            finished: 0,
            lengths: [0; SLOTS],
            table: [Entry::default(); TRANSACTIONS as usize],
        };
        let fits = (LEAST_LIMIT..=LONGEST_FRAME).contains(&limit) && card.fits(slots);
        if fits { Ok(card) } else { Err(26) }
    }

    /// The same end with nothing sealed or opened, at other numbers.
    pub fn starting_at(self, frame: u16, transaction: u32) -> Card {
        Card {
            next: frame,
            base: frame,
            next_transaction: transaction,
            lowest: transaction,
            ..self
        }
    }

    /// An open card has a limit that fits.
    #[inline(always)]
    fn fits(&self, slots: &[u8]) -> bool {
        slots.len() == SLOTS * self.limit
    }

    #[inline(always)]
    fn unreleased(&self) -> u16 {
        self.next.wrapping_sub(self.base)
    }

    /// Opens a transaction.
    #[inline]
    pub fn open_transaction(
        &mut self,
        count: u16,
        address: u32,
        value: u32,
        number: &mut u32,
    ) -> u32 {
        let transaction = self.next_transaction;
        if transaction.wrapping_sub(self.lowest) >= TRANSACTIONS {
            return 20;
        }
        self.table[(transaction % TRANSACTIONS) as usize] = Entry {
            address,
            value,
            count,
            left: count.max(1),
            latest: 0,
        };
        self.next_transaction = transaction.wrapping_add(1);
        *number = transaction;
        0
    }

    /// Adds a message.
    #[inline]
    pub fn add(
        &mut self,
        slots: &mut [u8],
        transaction: u32,
        data_address: u32,
        data: &[u8],
    ) -> u32 {
        if !self.fits(slots) {
            return 26;
        }
        let opened = self.next_transaction.wrapping_sub(self.lowest);
        let place = (transaction % TRANSACTIONS) as usize;
        let entry = self.table[place];
        if transaction.wrapping_sub(self.lowest) >= opened || entry.left == 0 {
            return 23;
        }
        if entry.count == 0 && !data.is_empty() {
            return 27;
        }
        if self.unreleased() >= SLOTS as u16 {
            return 21;
        }
        let start = if self.used == 0 {
            FRAME_HEADER
        } else {
            next_header(self.used)
        };
        let data_start = start + MESSAGE_HEADER;
        if self.limit < data_start || self.limit - data_start < data.len() {
            return 22;
        }
        let slot = &mut slots[usize::from(self.next) % SLOTS * self.limit..][..self.limit];
        if self.used == 0 {
            let ids = u64::from(self.peer) | u64::from(self.own) << 16 | u64::from(self.next) << 32;
            slot[..8].copy_from_slice(&ids.to_le_bytes());
            slot[8..10].copy_from_slice(&[0, 1]);
        } else {
            slot[self.last + 23] = 1;
            // Mostly there is no gap, and no call then.
            if self.used < start {
                slot[self.used..start].fill(0);
            }
        }
        put_header(
            &mut slot[start..data_start],
            transaction,
            entry,
            data_address,
            data.len(),
        );
        let end = data_start + data.len();
        copy(&mut slot[data_start..end], data);
        self.used = end;
        self.last = start;
        let entry = &mut self.table[place];
        entry.latest = self.next;
        entry.left -= 1;
        if entry.left == 0 {
            self.filled |= 1 << place;
        }
        0
    }

    /// Seals the frame being built.
    #[inline]
    pub fn seal(&mut self, slots: &[u8], number: &mut u16) -> u32 {
        if !self.fits(slots) {
            return 26;
        }
        if self.used == 0 {
            return 24;
        }
        self.lengths[usize::from(self.next) % SLOTS] = self.used as u16;
        *number = self.next;
        self.next = self.next.wrapping_add(1);
        self.used = 0;
        0
    }

    /// Reads a frame's acknowledgements.
    #[inline]
    pub fn read(&mut self, frame: &[u8]) -> u32 {
        let Some(header) = frame.first_chunk::<FRAME_HEADER>() else {
            return 1;
        };
        if frame.len() > LONGEST_FRAME {
            return 2;
        }
        let ids = u32::from_le_bytes([header[0], header[1], header[2], header[3]]);
        if ids != u32::from(self.own) | u32::from(self.peer) << 16 {
            return 3;
        }
        if header[9] > 1 {
            return 4;
        }
        if header[9] == 1 && !is_whole(frame, FRAME_HEADER) {
            return 5;
        }
        let start = u16::from_le_bytes([header[6], header[7]]);
        self.acknowledged |= self.covered(start, header[8].into());
        let run = self.acknowledged.trailing_ones();
        if run > 0 {
            self.release(run);
        }
        0
    }

    /// Marks of the unreleased frames among the `count` numbers from `start` on.
    #[inline(always)]
    fn covered(&self, start: u16, count: u32) -> u64 {
        let sealed = u32::from(self.unreleased());
        let first = u32::from(start.wrapping_sub(self.base));
        if first < sealed {
            ones(sealed.min(first + count)) & !ones(first)
        } else {
            // The range may begin before the window.
            ones(sealed.min((first + count).saturating_sub(1 << 16)))
        }
    }

    fn release(&mut self, run: u32) {
        let mut filled = self.filled;
        while filled != 0 {
            let place = filled.trailing_zeros();
            filled &= filled - 1;
            let latest = self.table[place as usize].latest;
            if u32::from(latest.wrapping_sub(self.base)) < run {
                self.filled ^= 1 << place;
                self.finished |= 1 << place;
            }
        }
        self.acknowledged = self.acknowledged.checked_shr(run).unwrap_or(0);
        self.base = self.base.wrapping_add(run as u16);
        let place = self.lowest % TRANSACTIONS;
        let passed = self.finished.rotate_right(place).trailing_ones();
        self.finished &= !(ones(passed) as u32).rotate_left(place);
        self.lowest = self.lowest.wrapping_add(passed);
    }

    /// Shows a held frame: where it starts in the slots, and its length.
    #[inline]
    pub fn show(&self, slots: &[u8], number: u16, part: &mut [u64; 2]) -> u32 {
        *part = [0; 2];
        if !self.fits(slots) {
            return 26;
        }
        let ahead = number.wrapping_sub(self.base);
        if ahead >= self.unreleased() || self.acknowledged >> ahead & 1 == 1 {
            return 25;
        }
        *part = self.part(number);
        0
    }

    #[inline(always)]
    fn part(&self, number: u16) -> [u64; 2] {
        let slot = usize::from(number) % SLOTS;
        [(slot * self.limit) as u64, self.lengths[slot].into()]
    }

    /// Chooses what goes out next: 1 for the lent acknowledgement or 0, then as above.
    #[inline]
    pub fn choose(&self, slots: &[u8], lent: &[u8], part: &mut [u64; 3]) -> u32 {
        *part = [0; 3];
        if !self.fits(slots) {
            return 26;
        }
        if lent.len() == FRAME_HEADER {
            *part = [1, 0, FRAME_HEADER as u64];
            return 0;
        }
        // The lowest one that is not released is not acknowledged either.
        if self.unreleased() == 0 {
            return 25;
        }
        let [offset, length] = self.part(self.base);
        *part = [0, offset, length];
        0
    }
}

/// The lowest `count` bits, of 64 at most.
#[inline(always)]
fn ones(count: u32) -> u64 {
    u64::MAX.checked_shr(64 - count).unwrap_or(0)
}

#[inline(always)]
fn put_header(to: &mut [u8], transaction: u32, entry: Entry, data_address: u32, length: usize) {
    let words = [
        u64::from(transaction) | u64::from(entry.address) << 32,
        u64::from(entry.value) | u64::from(entry.count) << 32,
        u64::from(data_address) | (length as u64) << 32,
    ];
    for (to, word) in to.chunks_exact_mut(8).zip(words) {
        to.copy_from_slice(&word.to_le_bytes());
    }
}
