//! The proved host by value through its exported functions, with words and a memory of its
//! own: every call unpacks the pair from the words and works on the value.

use logwhisker::raw::{self, ANSWER_WORDS, HOST_WORDS};
use reference::host::Host;

/// What words hold that a call is to write whole.
const JUNK: u64 = 0xa5a5_a5a5_a5a5_a5a5;

pub struct ByValue {
    words: [u64; HOST_WORDS],
    memory: Vec<u8>,
}

impl ByValue {
    /// A host opened by value; how that is answered is compared.
    pub fn open(own: u16, peer: u16, memory: &[u8]) -> ByValue {
        let mut words = [JUNK; HOST_WORDS];
        let got = raw::host_open_by_value(&mut words, own, peer);
        let (_, refusal) = Host::open(own, peer);
        assert_eq!(got, refusal.unwrap_or(0).into(), "opening {own}, {peer}");
        ByValue::from_words(&words, memory)
    }

    /// The host in the state that these words are.
    pub fn from_words(words: &[u64; HOST_WORDS], memory: &[u8]) -> ByValue {
        let (words, memory) = (*words, memory.to_vec());
        ByValue { words, memory }
    }

    /// Lets it have the frame; it is to answer these words and to leave this memory, and
    /// to leave its words where it does not accept.
    pub fn receive(
        &mut self,
        frame: &[u8],
        expected: &[u64; ANSWER_WORDS],
        memory: &[u8],
        name: &dyn Fn() -> String,
    ) {
        let before = self.words;
        let mut answer = [JUNK; ANSWER_WORDS];
        let kind =
            raw::host_receive_by_value(&mut self.words, frame, &mut self.memory, &mut answer);
        assert_eq!(answer, *expected, "by value: {}", name());
        assert_eq!(u64::from(kind), answer[0], "kind, by value: {}", name());
        assert!(self.memory == memory, "memory, by value: {}", name());
        if kind != raw::ACCEPTED {
            assert!(self.words == before, "words, by value: {}", name());
        }
    }

    /// Its state.
    pub fn words(&self) -> &[u64; HOST_WORDS] {
        &self.words
    }
}
