//! How a host's pair is kept over a restart: as the rules say, or with one fault, to show
//! that demand 3 over restarts would find it.

use crate::host::Host;
use std::ops::Range;

/// A store. All but the first have a fault.
#[derive(Clone, Copy, Debug, PartialEq, Eq)]
pub enum Store {
    /// As the rules say.
    Sound,
    /// A buffer that is too short is filled with the text's beginning, and not refused.
    WritesWhatFits,
    /// No text is read: every host comes back as from a refused opening.
    ReadsNone,
    /// The host comes back fresh, with the IDs of the text.
    ComesFresh,
    /// Bit i of the marks is taken for the frame after the one that it stands for.
    ShiftsMarks,
    /// The marks of closed transactions are not read.
    ForgetsClosed,
    /// The lines of open transactions are not read.
    ForgetsOpen,
    /// Memory does not come back: it is all zero.
    LosesMemory,
}

/// Where the first line spells the IDs, the marks of accepted frames and those of closed
/// transactions (R2).
const IDS: Range<usize> = 2..10;
pub(super) const MARKS: Range<usize> = 14..30;
pub(super) const CLOSED: Range<usize> = 38..46;
pub(super) const FIRST_LINE: usize = 47;

impl Store {
    /// Those with a fault.
    pub const FAULTY: [Store; 7] = [
        Store::WritesWhatFits,
        Store::ReadsNone,
        Store::ComesFresh,
        Store::ShiftsMarks,
        Store::ForgetsClosed,
        Store::ForgetsOpen,
        Store::LosesMemory,
    ];

    /// Stores a pair, as [`Host::store`] does.
    pub fn stored(self, host: &Host, buffer: &mut [u8]) -> Result<usize, u8> {
        if self != Store::WritesWhatFits {
            return host.store(buffer);
        }
        let text = host.text();
        let length = text.len().min(buffer.len());
        buffer[..length].copy_from_slice(&text.as_bytes()[..length]);
        Ok(length)
    }

    /// Reads a text, as [`Host::restored`] does.
    pub fn restored(self, text: &[u8]) -> (Host, Option<u8>) {
        let read = Host::restored(text);
        if read.1.is_some() {
            return read;
        }
        let mut text = text.to_vec();
        match self {
            Store::Sound | Store::WritesWhatFits | Store::LosesMemory => {}
            Store::ReadsNone => text.clear(),
            Store::ComesFresh => {
                text.truncate(FIRST_LINE);
                text[IDS.end..FIRST_LINE - 1].fill(b'0');
            }
            Store::ShiftsMarks => shift(&mut text[MARKS]),
            Store::ForgetsClosed => text[CLOSED].fill(b'0'),
            Store::ForgetsOpen => text.truncate(FIRST_LINE),
        }
        Host::restored(&text)
    }

    /// The memory that comes back, where this was kept.
    pub fn memory_back(self, kept: &[u8]) -> Vec<u8> {
        match self {
            Store::LosesMemory => vec![0; kept.len()],
            _ => kept.to_vec(),
        }
    }
}

/// Doubles a number of eight bytes, lowest first, that these digits spell.
fn shift(digits: &mut [u8]) {
    let spelt = str::from_utf8(digits).expect("digits");
    let number = u64::from_str_radix(spelt, 16).expect("sixteen digits");
    let doubled = (number.swap_bytes() << 1).swap_bytes();
    digits.copy_from_slice(format!("{doubled:016x}").as_bytes());
}
