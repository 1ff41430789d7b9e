//! A replay of a text that comes in fragments, cut anywhere: it owns its state, and gives
//! the answers that the whole text gets, in the same order.

use crate::host::Answer;
use crate::raw::{self, ANSWER_WORDS, HOST_WORDS, REPLAY_FRAME, REPLAY_MEMORY, REPLAY_WORDS};
use crate::refusal::Refusal;

/// Sums over the accepted frames of a replay.
#[derive(Clone, Copy, Debug, Default, PartialEq, Eq, Hash)]
pub struct Totals {
    /// Messages.
    pub messages: u64,
    /// Data bytes.
    pub bytes: u64,
    /// Complete transactions.
    pub completed: u64,
}

/// A replay with a host of ID 1 for frames from 2, and a memory of 4,096 bytes.
#[derive(Clone, Debug, PartialEq, Eq)]
pub struct Replay {
    place: [u64; REPLAY_WORDS],
    words: [u64; HOST_WORDS],
    frame: [u8; REPLAY_FRAME],
    memory: [u8; REPLAY_MEMORY],
}

impl Replay {
    /// A replay of which no character is read, with a memory of zeros.
    pub fn open() -> Replay {
        let mut replay = Replay {
            place: [0; REPLAY_WORDS],
            words: [0; HOST_WORDS],
            frame: [0; REPLAY_FRAME],
            memory: [0; REPLAY_MEMORY],
        };
        raw::replay_open(&mut replay.place, &mut replay.words, &mut replay.memory);
        replay
    }

    /// Takes a fragment through its first newline, and gives the bytes taken and that
    /// line's answer. Without a newline, or after 1,000,000 lines, all is taken and there
    /// is no answer. Once closed it is refused with 17.
    pub fn feed(&mut self, fragment: &[u8]) -> Result<(usize, Option<Answer>), Refusal> {
        let mut taken = 0;
        let mut answer = [0; ANSWER_WORDS];
        let said = raw::replay_feed(
            &mut self.place,
            &mut self.words,
            &mut self.frame,
            &mut self.memory,
            fragment,
            &mut taken,
            &mut answer,
        );
        Ok((taken, line_answer(said, &answer)?))
    }

    /// Gives the answer of a last line that no newline ends, if it has a character and
    /// fewer than 1,000,000 lines were answered, and the totals. Once closed it is refused
    /// with 17.
    pub fn close(&mut self) -> Result<(Option<Answer>, Totals), Refusal> {
        let mut answer = [0; ANSWER_WORDS];
        let mut totals = [0; 3];
        let said = raw::replay_close(
            &mut self.place,
            &mut self.words,
            &self.frame,
            &mut self.memory,
            &mut answer,
            &mut totals,
        );
        let last = line_answer(said, &answer)?;
        let [messages, bytes, completed] = totals;
        Ok((
            last,
            Totals {
                messages,
                bytes,
                completed,
            },
        ))
    }

    /// The memory.
    pub fn memory(&self) -> &[u8] {
        &self.memory
    }
}

/// What a call said of a line: 1 is an answer, 0 none, and any other number its refusal.
fn line_answer(said: u32, answer: &[u64; ANSWER_WORDS]) -> Result<Option<Answer>, Refusal> {
    match said {
        1 => Ok(Some(Answer::from_words(answer))),
        _ => Refusal::check(said).map(|()| None),
    }
}
