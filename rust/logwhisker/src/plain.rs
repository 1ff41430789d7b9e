//! The plain host, for tests and audits: it answers as [`Host`](crate::Host) does, and its
//! state may be looked into.

use crate::FRAME_HEADER;
use crate::host::Answer;
use crate::raw::{self, ANSWER_WORDS, PLAIN_WORDS};
use crate::refusal::Refusal;

/// A plain host's end of a connection: one word for each number and each mark.
///
/// ```
/// use logwhisker::{Host, PlainHost};
///
/// let mut memories = [vec![0; 64], vec![0; 64]];
/// let mut host = Host::open(1, 2)?;
/// let mut plain = PlainHost::open(1, 2)?;
/// let answer = host.receive(&[0; 10], &mut memories[0]);
/// assert_eq!(plain.receive(&[0; 10], &mut memories[1]), answer);
/// assert_eq!(plain.acknowledge(&answer, 0), host.acknowledge(&answer, 0));
/// # Ok::<(), logwhisker::Refusal>(())
/// ```
#[derive(Clone, Debug, PartialEq, Eq)]
pub struct PlainHost {
    words: [u64; PLAIN_WORDS],
}

impl PlainHost {
    /// A fresh end of this ID for frames from this peer.
    pub fn open(own: u16, peer: u16) -> Result<PlainHost, Refusal> {
        let mut words = [0; PLAIN_WORDS];
        Refusal::check(raw::plain_open(&mut words, own, peer))?;
        Ok(PlainHost { words })
    }

    /// Answers a frame, and writes what an accepted one says into `memory`, as
    /// [`Host::receive`](crate::Host::receive) does.
    pub fn receive(&mut self, frame: &[u8], memory: &mut [u8]) -> Answer {
        let mut answer = [0; ANSWER_WORDS];
        raw::plain_receive(&mut self.words, frame, memory, &mut answer);
        Answer::from_words(&answer)
    }

    /// The acknowledgement to be sent for an answer, if it calls for one, as
    /// [`Host::acknowledge`](crate::Host::acknowledge) gives it.
    pub fn acknowledge(&self, answer: &Answer, number: u16) -> Option<[u8; FRAME_HEADER]> {
        let mut frame = [0; FRAME_HEADER];
        let due = raw::plain_acknowledge(&self.words, &answer.words(), number, &mut frame);
        (due != 0).then_some(frame)
    }

    /// The state that these words are; any words are one.
    pub fn from_words(words: [u64; PLAIN_WORDS]) -> PlainHost {
        PlainHost { words }
    }

    /// Own ID, peer ID, next frame, lowest transaction; whether each of 64 frames from the
    /// next on was accepted, and whether each of 32 transactions from the lowest on is closed,
    /// which is any word but 0; and address, value, count and received of each of 32 open
    /// places, by number modulo 32.
    pub fn words(&self) -> &[u64; PLAIN_WORDS] {
        &self.words
    }
}
