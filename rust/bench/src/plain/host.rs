//! A host as one writes it for speed: state in place, marks in single words, one walk
//! that reads and judges, one that writes, and nothing allocated for a frame. It gives
//! the same answers as the reference, which a test beside it compares.

pub(super) const FRAME_HEADER: usize = 10;
pub(super) const MESSAGE_HEADER: usize = 24;
pub(super) const LONGEST_FRAME: usize = 9_000;
/// Messages of no bytes that fit in the longest frame.
const MOST_MESSAGES: usize = (LONGEST_FRAME - FRAME_HEADER) / MESSAGE_HEADER;
const FRAME_WINDOW: u16 = 64;
const FRAME_BEHIND: u16 = 32_768;
const TRANSACTION_WINDOW: u32 = 32;
const LONGEST_RUN: u16 = 255;

/// What a frame is answered.
#[derive(Clone, Copy, Debug, Default, PartialEq, Eq)]
pub enum Answer {
    /// All its messages took effect.
    Accepted {
        /// Frame number.
        number: u16,
        /// Messages.
        messages: u32,
        /// Data bytes.
        bytes: u32,
        /// Transactions that became complete.
        completed: u32,
        /// How many numbers from this one on are acknowledged.
        run: u8,
    },
    /// The number is behind or was accepted before.
    Again {
        /// Frame number.
        number: u16,
        /// As above.
        run: u8,
    },
    /// The flag is clear.
    #[default]
    NoMessages,
    /// Nothing changed.
    Refused {
        /// The refusal's number.
        number: u8,
        /// The message's index for 7 to 12, otherwise 0.
        place: u32,
    },
}

/// An open transaction, or `received` 0 for none.
#[derive(Clone, Copy, Default)]
struct Entry {
    address: u32,
    value: u32,
    count: u16,
    received: u16,
}

/// The fields of a message header.
struct Header {
    transaction: u32,
    address: u32,
    value: u32,
    count: u16,
    data_address: u32,
    length: usize,
    trailing: u8,
}

impl Header {
    #[inline(always)]
    fn read(frame: &[u8], at: usize) -> Option<Header> {
        let bytes: &[u8; MESSAGE_HEADER] = frame.get(at..)?.first_chunk()?;
        let word = |at: usize| u64::from_le_bytes(bytes[at..at + 8].try_into().unwrap());
        let (first, second, third) = (word(0), word(8), word(16));
        Some(Header {
            transaction: first as u32,
            address: (first >> 32) as u32,
            value: second as u32,
            count: (second >> 32) as u16,
            data_address: third as u32,
            length: usize::from((third >> 32) as u16),
            trailing: (third >> 56) as u8,
        })
    }
}

/// The host's end of a pair.
pub struct Host {
    /// The first four bytes of a frame for this end, from its peer.
    ids: u32,
    next: u16,
    /// Bit i is set if `next + i` was accepted.
    marks: u64,
    lowest: u32,
    /// Bit i is set if `lowest + i` is complete.
    closed: u32,
    /// Open transactions at their number modulo 32.
    open: [Entry; 32],
    /// What stood in `open` before the frame, where the frame changed it.
    saved: [Entry; 32],
    /// Where the frame's messages start, with the top bit set for a completing one.
    places: [u16; MOST_MESSAGES],
}

const COMPLETING: u16 = 0x8000;

impl Host {
    /// A fresh end, and refusal 13 if an ID is 0; it then has both IDs 0.
    pub fn open(own: u16, peer: u16) -> (Host, Option<u8>) {
        if own == 0 || peer == 0 {
            (Host::starting_at(0, 0, 0, 0), Some(13))
        } else {
            (Host::starting_at(own, peer, 0, 0), None)
        }
    }

    /// An end with these numbers to come next, nothing received ahead and none open.
    pub fn starting_at(own: u16, peer: u16, next: u16, lowest: u32) -> Host {
        Host {
            ids: u32::from(own) | u32::from(peer) << 16,
            next,
            marks: 0,
            lowest,
            closed: 0,
            open: [Entry::default(); 32],
            saved: [Entry::default(); 32],
            places: [0; MOST_MESSAGES],
        }
    }

    /// Answers any bytes at all.
    pub fn receive(&mut self, frame: &[u8], memory: &mut [u8]) -> Answer {
        let Some(header) = frame.first_chunk::<FRAME_HEADER>() else {
            return refused(1);
        };
        if frame.len() > LONGEST_FRAME {
            return refused(2);
        }
        let &[a, b, c, d, low, high, _, _, _, flags] = header;
        if u32::from_le_bytes([a, b, c, d]) != self.ids {
            return refused(3);
        }
        if flags > 1 {
            return refused(4);
        }
        if flags == 0 {
            return Answer::NoMessages;
        }
        let number = u16::from_le_bytes([low, high]);
        let distance = number.wrapping_sub(self.next);
        if distance >= FRAME_WINDOW || self.marks >> distance & 1 == 1 {
            return if !is_whole(frame, FRAME_HEADER) {
                refused(5)
            } else if (FRAME_WINDOW..FRAME_BEHIND).contains(&distance) {
                refused(6)
            } else {
                let run = self.run_again(distance);
                Answer::Again { number, run }
            };
        }
        self.judge(frame, memory, number)
    }

    #[inline(always)]
    fn judge(&mut self, frame: &[u8], memory: &mut [u8], number: u16) -> Answer {
        // Held in registers, and not put back if a message is refused.
        let (mut lowest, mut closed) = (self.lowest, self.closed);
        let size = memory.len() as u64;
        let mut changed = 0u32;
        let mut at = FRAME_HEADER;
        let mut messages = 0;
        let mut bytes = 0;
        let mut completed = 0;
        let refusal = loop {
            let Some(header) = Header::read(frame, at) else {
                break 5;
            };
            let end = at + MESSAGE_HEADER + header.length;
            if end > frame.len() {
                break 5;
            }
            let step = header.transaction.wrapping_sub(lowest);
            if step >= TRANSACTION_WINDOW {
                break 7;
            }
            if closed >> step & 1 == 1 {
                break 8;
            }
            let slot = header.transaction as usize % 32;
            let entry = &mut self.open[slot];
            let received = entry.received + 1;
            let same = entry.address == header.address
                && entry.value == header.value
                && entry.count == header.count;
            if received > 1 && !same {
                break 9;
            }
            if header.count == 0 && header.length != 0 {
                break 10;
            }
            if u64::from(header.data_address) + header.length as u64 > size {
                break 11;
            }
            if u64::from(header.address) + 4 > size {
                break 12;
            }

            let complete = received >= header.count;
            // A transaction of one message leaves no trace in the table.
            if !(complete && received == 1) {
                if changed >> slot & 1 == 0 {
                    changed |= 1 << slot;
                    self.saved[slot] = *entry;
                }
                *entry = Entry {
                    address: header.address,
                    value: header.value,
                    count: header.count,
                    received: if complete { 0 } else { received },
                };
            }
            let mut place = at as u16;
            if complete {
                place |= COMPLETING;
                completed += 1;
                closed |= 1 << step;
                let run = closed.trailing_ones();
                closed = closed.checked_shr(run).unwrap_or(0);
                lowest = lowest.wrapping_add(run);
            }
            self.places[messages] = place;
            messages += 1;
            bytes += header.length;
            if header.trailing == 0 {
                break 0;
            }
            at = next_header(end);
        };
        if refusal != 0 {
            self.undo(changed);
            // A layout that is broken further on comes first.
            return if refusal == 5 || !is_whole(frame, at) {
                refused(5)
            } else {
                Answer::Refused {
                    number: refusal,
                    place: messages as u32,
                }
            };
        }
        self.lowest = lowest;
        self.closed = closed;
        self.write(frame, memory, messages);
        let run = self.mark(number);
        Answer::Accepted {
            number,
            messages: messages as u32,
            bytes: bytes as u32,
            completed,
            run,
        }
    }

    #[cold]
    fn undo(&mut self, mut changed: u32) {
        while changed != 0 {
            let slot = changed.trailing_zeros() as usize;
            self.open[slot] = self.saved[slot];
            changed &= changed - 1;
        }
    }

    #[inline(always)]
    fn write(&self, frame: &[u8], memory: &mut [u8], messages: usize) {
        for place in &self.places[..messages] {
            let at = usize::from(place & !COMPLETING);
            let Some(header) = Header::read(frame, at) else {
                return;
            };
            let data = &frame[at + MESSAGE_HEADER..][..header.length];
            copy(
                &mut memory[header.data_address as usize..][..data.len()],
                data,
            );
            if place & COMPLETING != 0 {
                let value = header.value.to_le_bytes();
                memory[header.address as usize..][..4].copy_from_slice(&value);
            }
        }
    }

    /// Marks an accepted number and gives the run from it on: the ones from its mark on,
    /// whether or not next then moves past them.
    #[inline(always)]
    fn mark(&mut self, number: u16) -> u8 {
        let distance = number.wrapping_sub(self.next);
        self.marks |= 1 << distance;
        let run = (self.marks >> distance).trailing_ones() as u8;
        let passed = self.marks.trailing_ones();
        self.marks = self.marks.checked_shr(passed).unwrap_or(0);
        self.next = self.next.wrapping_add(passed as u16);
        run
    }

    /// The run from a number on that is accepted or behind. The next one's mark is never
    /// set, so that a run from behind ends there.
    #[inline(always)]
    fn run_again(&self, distance: u16) -> u8 {
        if distance < FRAME_WINDOW {
            (self.marks >> distance).trailing_ones() as u8
        } else {
            distance.wrapping_neg().min(LONGEST_RUN) as u8
        }
    }

    /// The acknowledgement that an answer calls for.
    pub fn acknowledgement(&self, answer: Answer, next_number: u16) -> Option<[u8; 10]> {
        let (Answer::Accepted { number, run, .. } | Answer::Again { number, run }) = answer else {
            return None;
        };
        let [own_low, own_high, peer_low, peer_high] = self.ids.to_le_bytes();
        let [next_low, next_high] = next_number.to_le_bytes();
        let [low, high] = number.to_le_bytes();
        Some([
            peer_low, peer_high, own_low, own_high, next_low, next_high, low, high, run, 0,
        ])
    }
}

fn refused(number: u8) -> Answer {
    Answer::Refused { number, place: 0 }
}

#[inline(always)]
pub(super) fn next_header(data_end: usize) -> usize {
    ((data_end - 3) & !7) + FRAME_HEADER
}

/// Whether the messages from `at` on are all there.
pub(super) fn is_whole(frame: &[u8], mut at: usize) -> bool {
    loop {
        let Some(header) = Header::read(frame, at) else {
            return false;
        };
        let end = at + MESSAGE_HEADER + header.length;
        if end > frame.len() {
            return false;
        }
        if header.trailing == 0 {
            return true;
        }
        at = next_header(end);
    }
}

/// Copies without a call for the few bytes that most messages have.
#[inline(always)]
pub(super) fn copy(to: &mut [u8], from: &[u8]) {
    let length = from.len();
    if (8..=16).contains(&length) {
        let (first, last) = (&from[..8], &from[length - 8..]);
        to[..8].copy_from_slice(first);
        to[length - 8..].copy_from_slice(last);
    } else {
        to.copy_from_slice(from);
    }
}
