//! The lines of the program `calls`: words with one space between them, numbers in
//! decimal, bytes in hexadecimal of either case and `-` for none. A line that is not of
//! one of the forms, or past a limit, is none.

use crate::ledger::SUBSCRIBERS;
use crate::replay;
use crate::table::Region;

/// Characters of a line at most.
pub const LONGEST_LINE: usize = 200_000;
/// Bytes of a slot buffer at most.
pub const MOST_SLOTS: usize = 600_000;
/// Bytes of a memory at most.
pub const MOST_MEMORY: usize = 1_048_576;

/// A line of one of the forms.
#[derive(Clone, Debug, PartialEq, Eq)]
pub enum Line {
    Card {
        own: u16,
        peer: u16,
        limit: usize,
        slots: usize,
    },
    Host {
        own: u16,
        peer: u16,
        memory: usize,
    },
    Open {
        count: u16,
        address: u32,
        value: u32,
    },
    Add {
        transaction: u32,
        address: u32,
        data: Vec<u8>,
    },
    Seal,
    Read(Vec<u8>),
    Show(u16),
    Choose(Vec<u8>),
    Receive(Vec<u8>),
    Layout(Vec<u8>),
    Class(u32),
    Marks(u64),
    Slots,
    Memory,
    State,
    Store(usize),
    Restore(Vec<u8>),
    Table {
        own: u16,
        memory: usize,
    },
    Register {
        source: u16,
        region: Region,
        memory: u64,
    },
    Remove(u16),
    Deliver {
        memory: u64,
        frame: Vec<u8>,
    },
    Take(u16),
    Adopt {
        region: Region,
        memory: u64,
    },
    TableState,
    Ledger,
    Block(Vec<u8>),
    Total(u32),
}

impl Line {
    /// Reads a line, given without its newline.
    pub fn read(line: &[u8]) -> Option<Line> {
        if line.len() > LONGEST_LINE {
            return None;
        }
        let words: Vec<&[u8]> = line.split(|byte| *byte == b' ').collect();
        let (name, words) = words.split_first().expect("a split has a first part");
        match (*name, words) {
            (b"card", [own, peer, limit, slots, changed]) => {
                // Whether the limit has changed means nothing yet, but has to be said.
                number::<u8>(changed).filter(|changed| *changed <= 1)?;
                Some(Line::Card {
                    own: number(own)?,
                    peer: number(peer)?,
                    limit: number::<u32>(limit)? as usize,
                    slots: number(slots).filter(|slots| *slots <= MOST_SLOTS)?,
                })
            }
            (b"host", [own, peer, memory]) => Some(Line::Host {
                own: number(own)?,
                peer: number(peer)?,
                memory: number(memory).filter(|memory| *memory <= MOST_MEMORY)?,
            }),
            (b"open", [count, address, value]) => Some(Line::Open {
                count: number(count)?,
                address: number(address)?,
                value: number(value)?,
            }),
            (b"add", [transaction, address, data]) => Some(Line::Add {
                transaction: number(transaction)?,
                address: number(address)?,
                data: bytes(data)?,
            }),
            (b"seal", []) => Some(Line::Seal),
            (b"read", [frame]) => Some(Line::Read(bytes(frame)?)),
            (b"show", [frame]) => Some(Line::Show(number(frame)?)),
            (b"choose", [lent]) => Some(Line::Choose(bytes(lent)?)),
            (b"receive", [frame]) => Some(Line::Receive(bytes(frame)?)),
            (b"layout", [frame]) => Some(Line::Layout(bytes(frame)?)),
            (b"class", [refusal]) => Some(Line::Class(number(refusal)?)),
            (b"marks", [marks]) => Some(Line::Marks(number(marks)?)),
            (b"slots", []) => Some(Line::Slots),
            (b"memory", []) => Some(Line::Memory),
            (b"state", []) => Some(Line::State),
            (b"store", [length]) => {
                let length = number(length).filter(|length| *length <= MOST_MEMORY)?;
                Some(Line::Store(length))
            }
            (b"restore", [text]) => Some(Line::Restore(bytes(text)?)),
            (b"table", [own, memory]) => Some(Line::Table {
                own: number(own)?,
                memory: number(memory).filter(|memory| *memory <= MOST_MEMORY)?,
            }),
            (b"register", [source, first, length, memory]) => Some(Line::Register {
                source: number(source)?,
                region: region(first, length)?,
                memory: number(memory)?,
            }),
            (b"remove", [source]) => Some(Line::Remove(number(source)?)),
            (b"deliver", [memory, frame]) => Some(Line::Deliver {
                memory: number(memory)?,
                frame: bytes(frame)?,
            }),
            (b"take", [source]) => Some(Line::Take(number(source)?)),
            (b"adopt", [first, length, memory]) => Some(Line::Adopt {
                region: region(first, length)?,
                memory: number(memory)?,
            }),
            (b"tablestate", []) => Some(Line::TableState),
            (b"ledger", []) => Some(Line::Ledger),
            (b"block", [data]) => Some(Line::Block(bytes(data)?)),
            (b"total", [subscriber]) => {
                let subscriber = number(subscriber).filter(|number| *number < SUBSCRIBERS)?;
                Some(Line::Total(subscriber))
            }
            _ => None,
        }
    }
}

/// One or more decimal digits, if the value is one of the type's.
fn number<T: TryFrom<u64>>(word: &[u8]) -> Option<T> {
    if word.is_empty() {
        return None;
    }
    let value = word.iter().try_fold(0u64, |value, digit| {
        let digit = digit.is_ascii_digit().then(|| u64::from(digit - b'0'))?;
        value.checked_mul(10)?.checked_add(digit)
    })?;
    T::try_from(value).ok()
}

/// Any two 64-bit numbers.
fn region(first: &[u8], length: &[u8]) -> Option<Region> {
    Some(Region {
        first: number(first)?,
        length: number(length)?,
    })
}

/// Bytes in hexadecimal; a word of no digits is not a way to say that there are none.
fn bytes(word: &[u8]) -> Option<Vec<u8>> {
    match word {
        b"-" => Some(Vec::new()),
        b"" => None,
        _ => replay::bytes_of(word),
    }
}
