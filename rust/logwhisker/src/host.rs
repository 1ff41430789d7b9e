//! The charging host's end of a connection: it owns its state, answers any bytes at all, and
//! writes what accepted frames say into the memory lent with each of them.

use crate::FRAME_HEADER;
use crate::raw::{self, ANSWER_WORDS, DESCRIPTION_WORDS, HOST_WORDS};
use crate::refusal::Refusal;

/// What a frame is answered. The numbers are those of this frame only.
#[derive(Clone, Copy, Debug, PartialEq, Eq, Hash)]
pub enum Answer {
    /// All its messages took effect.
    Accepted {
        /// Frame number.
        number: u16,
        /// Messages.
        messages: u32,
        /// Data bytes.
        bytes: u32,
        /// Transactions that became complete.
        completed: u32,
        /// How many frame numbers are acknowledged from this one on, 1 to 255.
        run: u8,
    },
    /// The frame was accepted before or lies behind: it is acknowledged and not looked at.
    Again {
        /// Frame number.
        number: u16,
        /// How many frame numbers are acknowledged from this one on, 1 to 255.
        run: u8,
    },
    /// The frame carries no messages; nothing changed.
    NoMessages,
    /// Nothing changed.
    Refused {
        /// Why.
        refusal: Refusal,
        /// The message's index for a refusal of one message, otherwise 0.
        place: u32,
    },
}

impl Answer {
    /// The answer that the library wrote. Each number fits, as a frame has 9,000 bytes at most.
    pub(crate) fn from_words(words: &[u64; ANSWER_WORDS]) -> Answer {
        let [
            kind,
            number,
            messages,
            bytes,
            completed,
            refusal,
            place,
            run,
        ] = *words;
        match u32::try_from(kind) {
            Ok(raw::ACCEPTED) => Answer::Accepted {
                number: number as u16,
                messages: messages as u32,
                bytes: bytes as u32,
                completed: completed as u32,
                run: run as u8,
            },
            Ok(raw::AGAIN) => Answer::Again {
                number: number as u16,
                run: run as u8,
            },
            Ok(raw::NO_MESSAGES) => Answer::NoMessages,
            Ok(raw::REFUSED) => Answer::Refused {
                refusal: Refusal::from_number(refusal as u32)
                    .expect("a refused frame has a refusal"),
                place: place as u32,
            },
            _ => unreachable!("the library has no answer of kind {kind}"),
        }
    }

    /// The words of this answer: kind, number, messages, bytes, completed, refusal, place, run.
    pub fn words(&self) -> [u64; ANSWER_WORDS] {
        match *self {
            Answer::Accepted {
                number,
                messages,
                bytes,
                completed,
                run,
            } => [
                raw::ACCEPTED.into(),
                number.into(),
                messages.into(),
                bytes.into(),
                completed.into(),
                0,
                0,
                run.into(),
            ],
            Answer::Again { number, run } => {
                let kind = raw::AGAIN.into();
                [kind, number.into(), 0, 0, 0, 0, 0, run.into()]
            }
            Answer::NoMessages => [raw::NO_MESSAGES.into(), 0, 0, 0, 0, 0, 0, 0],
            Answer::Refused { refusal, place } => [
                raw::REFUSED.into(),
                0,
                0,
                0,
                0,
                refusal.number().into(),
                place.into(),
                0,
            ],
        }
    }
}

/// A transaction of which messages came and others are to come.
#[derive(Clone, Copy, Debug, Default, PartialEq, Eq)]
pub struct OpenTransaction {
    /// Transaction number.
    pub number: u32,
    /// Where its completion is written.
    pub address: u32,
    /// What its completion writes.
    pub value: u32,
    /// How many data messages it has.
    pub count: u16,
    /// How many messages were received.
    pub received: u16,
}

/// A host's state in words of the rules.
#[derive(Clone, Debug, PartialEq, Eq)]
pub struct Description {
    /// Own ID.
    pub own: u16,
    /// The peer's ID.
    pub peer: u16,
    /// The lowest frame number not accepted.
    pub next: u16,
    /// Bit i is set where the frame `next + i` was accepted.
    pub marks: u64,
    /// The lowest transaction that is not complete.
    pub lowest: u32,
    /// Bit i is set where the transaction `lowest + i` is complete.
    pub closed: u32,
    open: [OpenTransaction; 32],
    count: usize,
}

impl Description {
    /// The open transactions, nearest the lowest first.
    pub fn open(&self) -> &[OpenTransaction] {
        &self.open[..self.count]
    }

    fn from_words(words: &[u64; DESCRIPTION_WORDS]) -> Description {
        let mut open = [OpenTransaction::default(); 32];
        let (head, table) = words.split_at(7);
        let entries: &[[u64; 5]] = table.as_chunks().0;
        for (entry, &[number, address, value, count, received]) in open.iter_mut().zip(entries) {
            *entry = OpenTransaction {
                number: number as u32,
                address: address as u32,
                value: value as u32,
                count: count as u16,
                received: received as u16,
            };
        }
        Description {
            own: head[0] as u16,
            peer: head[1] as u16,
            next: head[2] as u16,
            marks: head[3],
            lowest: head[4] as u32,
            closed: head[5] as u32,
            open,
            count: head[6] as usize,
        }
    }
}

/// The host's end of a connection. Unless a frame is accepted, host and memory stay as they were.
#[derive(Clone, Debug, PartialEq, Eq)]
pub struct Host {
    words: [u64; HOST_WORDS],
}

impl Host {
    /// An end that is not open: fresh, with both IDs 0, as a refused opening leaves it.
    pub fn new() -> Host {
        let mut host = Host {
            words: [0; HOST_WORDS],
        };
        // Refused, and that is what is wanted.
        let _ = host.reopen(0, 0);
        host
    }

    /// A fresh end of this own ID for this peer; refused if one of them is 0.
    pub fn open(own: u16, peer: u16) -> Result<Host, Refusal> {
        let mut host = Host {
            words: [0; HOST_WORDS],
        };
        host.reopen(own, peer)?;
        Ok(host)
    }

    /// Starts anew; where that is refused, the end is as [`Host::new`] makes it.
    pub fn reopen(&mut self, own: u16, peer: u16) -> Result<(), Refusal> {
        Refusal::check(raw::host_open(&mut self.words, own, peer))
    }

    /// Answers a frame, and writes what an accepted one says into `memory`, whose first
    /// byte has address 0. The same memory is to be lent each time, unchanged in between.
    pub fn receive(&mut self, frame: &[u8], memory: &mut [u8]) -> Answer {
        let mut answer = [0; ANSWER_WORDS];
        raw::host_receive(&mut self.words, frame, memory, &mut answer);
        Answer::from_words(&answer)
    }

    /// The acknowledgement to be sent for an answer, if it calls for one: of the answer's
    /// number and run. `number` is that of the next message frame of this end; one that sends
    /// none gives 0.
    pub fn acknowledge(&self, answer: &Answer, number: u16) -> Option<[u8; FRAME_HEADER]> {
        let mut frame = [0; FRAME_HEADER];
        let due = raw::host_acknowledge(&self.words, &answer.words(), number, &mut frame);
        (due != 0).then_some(frame)
    }

    /// IDs, both windows and the open transactions. Nothing changes.
    pub fn describe(&self) -> Description {
        let mut words = [0; DESCRIPTION_WORDS];
        raw::host_describe(&self.words, &mut words);
        Description::from_words(&words)
    }

    /// Stores the host as text from the start of `buffer` on and gives the text's length, at
    /// most [`LONGEST_TEXT`](crate::LONGEST_TEXT); refused if an ID is 0 or the buffer is
    /// shorter. Past the text, and where it is refused, the buffer stays as it was.
    pub fn store(&self, buffer: &mut [u8]) -> Result<usize, Refusal> {
        let mut length = 0;
        Refusal::check(raw::host_store(&self.words, buffer, &mut length))?;
        Ok(length)
    }

    /// The host that was stored as this text, to go on with the memory of that moment;
    /// refused if no host is stored as it.
    pub fn from_text(text: &[u8]) -> Result<Host, Refusal> {
        let mut host = Host {
            words: [0; HOST_WORDS],
        };
        host.restore(text)?;
        Ok(host)
    }

    /// Takes up the place of a stored text; where that is refused, the end is as
    /// [`Host::new`] makes it.
    pub fn restore(&mut self, text: &[u8]) -> Result<(), Refusal> {
        Refusal::check(raw::host_restore(&mut self.words, text))
    }

    /// The state that these words are; any words are one.
    pub fn from_words(words: [u64; HOST_WORDS]) -> Host {
        Host { words }
    }

    /// The words of the state, to be kept and not to be looked into.
    pub fn words(&self) -> &[u64; HOST_WORDS] {
        &self.words
    }
}

impl Default for Host {
    fn default() -> Host {
        Host::new()
    }
}
