//! The plain host through its exported functions, with a memory of its own. A state that
//! the first host's words are becomes one word for each mark and number here, with junk
//! in all bits that are not looked at.

use logwhisker::raw::{self, ANSWER_WORDS, HOST_WORDS, PLAIN_WORDS};
use reference::host::Host;

/// Where marks and entries begin.
const ACCEPTED: usize = 4;
const CLOSED: usize = 68;
const TABLE: usize = 100;
/// What words hold that a call is to write whole.
const JUNK: u64 = 0xa5a5_a5a5_a5a5_a5a5;

pub struct Plain {
    words: [u64; PLAIN_WORDS],
    memory: Vec<u8>,
}

impl Plain {
    /// A plain host opened; how that is answered is compared.
    pub fn open(own: u16, peer: u16, memory: &[u8]) -> Plain {
        let mut words = [JUNK; PLAIN_WORDS];
        let got = raw::plain_open(&mut words, own, peer);
        let (_, refusal) = Host::open(own, peer);
        assert_eq!(got, refusal.unwrap_or(0).into(), "opening {own}, {peer}");
        let memory = memory.to_vec();
        Plain { words, memory }
    }

    /// The plain host in the state that these words of the first one are.
    pub fn from_words(host: &[u64; HOST_WORDS], memory: &[u8]) -> Plain {
        let mut words = [0; PLAIN_WORDS];
        // What is above a number's field is not looked at, and any word but 0 is a mark.
        let sixteen = |word: u64| word & 0xffff | host[3] << 16;
        let thirty_two = |word: u64| word & 0xffff_ffff | host[4] << 32;
        words[0] = sixteen(host[0]);
        words[1] = sixteen(host[0] >> 16);
        words[2] = sixteen(host[0] >> 32);
        words[3] = thirty_two(host[2]);
        for bit in 0..64 {
            words[ACCEPTED + bit] = host[1] & 1 << bit;
        }
        for bit in 0..32 {
            words[CLOSED + bit] = host[2] & 1 << (32 + bit);
        }
        for place in 0..32 {
            let [terms, counts] = [host[3 + 2 * place], host[4 + 2 * place]];
            let entry = [
                thirty_two(terms),
                thirty_two(terms >> 32),
                sixteen(counts),
                sixteen(counts >> 16),
            ];
            words[TABLE + 4 * place..][..4].copy_from_slice(&entry);
        }
        let memory = memory.to_vec();
        Plain { words, memory }
    }

    /// Lets it have the frame; it is to answer these words and to leave this memory, and
    /// to leave its words where it does not accept.
    pub fn receive(
        &mut self,
        frame: &[u8],
        expected: &[u64; ANSWER_WORDS],
        memory: &[u8],
        name: &dyn Fn() -> String,
    ) {
        let before = self.words;
        let mut answer = [JUNK; ANSWER_WORDS];
        let kind = raw::plain_receive(&mut self.words, frame, &mut self.memory, &mut answer);
        assert_eq!(answer, *expected, "plain host: {}", name());
        assert_eq!(u64::from(kind), answer[0], "kind: {}", name());
        assert!(self.memory == memory, "the plain host's memory: {}", name());
        if kind != raw::ACCEPTED {
            assert!(self.words == before, "the plain host's words: {}", name());
        }
    }

    /// Lets it acknowledge an answer by its words, which is to come to this.
    pub fn acknowledge(
        &self,
        answer: &[u64; ANSWER_WORDS],
        number: u16,
        expected: Option<[u8; 10]>,
        name: &dyn Fn() -> String,
    ) {
        let mut frame = [0xa5; 10];
        let due = raw::plain_acknowledge(&self.words, answer, number, &mut frame);
        let expected = (expected.is_some().into(), expected.unwrap_or([0xa5; 10]));
        assert_eq!((due, frame), expected, "plain host: {}", name());
    }

    /// The words of the first host that are this state.
    pub fn host_words(&self) -> [u64; HOST_WORDS] {
        let plain = &self.words;
        let sixteen = |at: usize| u64::from(plain[at] as u16);
        let thirty_two = |at: usize| u64::from(plain[at] as u32);
        let marks = |at: usize, count: usize| -> u64 {
            let set = (0..count).filter(|i| plain[at + i] != 0);
            set.map(|i| 1 << i).sum()
        };
        let mut words = [0; HOST_WORDS];
        words[0] = sixteen(0) | sixteen(1) << 16 | sixteen(2) << 32;
        words[1] = marks(ACCEPTED, 64);
        words[2] = thirty_two(3) | marks(CLOSED, 32) << 32;
        for place in 0..32 {
            let at = TABLE + 4 * place;
            words[3 + 2 * place] = thirty_two(at) | thirty_two(at + 1) << 32;
            words[4 + 2 * place] = sixteen(at + 2) | sixteen(at + 3) << 16;
        }
        words
    }
}
