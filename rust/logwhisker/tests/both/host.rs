//! The proved host in place, the same by value and the plain one beside the independent
//! one: after every call its answer, the acknowledgement, memory, description and state are
//! compared.

mod by_value;
pub mod plain;

use by_value::ByValue;
use logwhisker::raw::{self, ANSWER_WORDS, DESCRIPTION_WORDS, HOST_WORDS};
use plain::Plain;
use reference::host::{Answer, Host};

/// Bytes on both sides of memory that must stay as they are.
const MARGIN: usize = 64;
/// What buffers hold that a call is to write whole, or not at all.
const JUNK: u64 = 0xa5a5_a5a5_a5a5_a5a5;

/// The bits of a host's words that have a meaning.
fn named(words: &[u64; HOST_WORDS]) -> [u64; HOST_WORDS] {
    let mut named = *words;
    named[0] &= (1 << 48) - 1;
    for place in 0..32 {
        named[4 + 2 * place] &= u64::from(u32::MAX);
    }
    named
}

/// The hosts, and the memory of each.
pub struct Both {
    words: [u64; HOST_WORDS],
    by_value: ByValue,
    plain: Plain,
    /// With a margin on both sides.
    lent: Vec<u8>,
    reference: Host,
    memory: Vec<u8>,
}

impl Both {
    /// Both opened; how that is answered is compared.
    pub fn open(own: u16, peer: u16, memory: &[u8]) -> Both {
        let mut words = [JUNK; HOST_WORDS];
        let got = raw::host_open(&mut words, own, peer);
        let (reference, refusal) = Host::open(own, peer);
        assert_eq!(got, refusal.unwrap_or(0).into(), "opening {own}, {peer}");
        let by_value = ByValue::open(own, peer, memory);
        let plain = Plain::open(own, peer, memory);
        let both = Both::new(words, by_value, plain, reference, memory);
        both.compare_state(&|| format!("opening {own}, {peer}"));
        both
    }

    /// Both in the state that these words are.
    pub fn from_words(words: [u64; HOST_WORDS], memory: &[u8]) -> Both {
        let by_value = ByValue::from_words(&words, memory);
        let plain = Plain::from_words(&words, memory);
        let both = Both::new(words, by_value, plain, Host::from_words(&words), memory);
        both.compare_state(&|| format!("{words:x?}"));
        both
    }

    fn new(
        words: [u64; HOST_WORDS],
        by_value: ByValue,
        plain: Plain,
        reference: Host,
        memory: &[u8],
    ) -> Both {
        let margin = [0xa5; MARGIN];
        Both {
            words,
            by_value,
            plain,
            lent: [&margin[..], memory, &margin].concat(),
            reference,
            memory: memory.to_vec(),
        }
    }

    /// Lets both have the frame, and gives what both answer. `next_number` goes into the
    /// acknowledgement; `name` says in a failure which frame it is.
    pub fn receive(&mut self, frame: &[u8], next_number: u16, name: &dyn Fn() -> String) -> Answer {
        let before = named(&self.words);
        let end = MARGIN + self.memory.len();
        let mut answer = [JUNK; ANSWER_WORDS];
        let lent = &mut self.lent[MARGIN..end];
        let kind = raw::host_receive(&mut self.words, frame, lent, &mut answer);
        let expected = self.reference.receive(frame, &mut self.memory);
        assert_eq!(answer, answer_words(expected), "{expected:?}: {}", name());
        assert_eq!(u64::from(kind), answer[0], "kind: {}", name());
        self.by_value.receive(frame, &answer, &self.memory, name);
        self.plain.receive(frame, &answer, &self.memory, name);
        let at = self.lent[MARGIN..end]
            .iter()
            .zip(&self.memory)
            .position(|(a, b)| a != b);
        assert_eq!(at, None, "memory after {expected:?}: {}", name());
        let margins = self.lent[..MARGIN].iter().chain(&self.lent[end..]);
        assert!(
            margins.into_iter().all(|byte| *byte == 0xa5),
            "beside memory: {}",
            name()
        );
        if !matches!(expected, Answer::Accepted { .. }) {
            assert!(
                named(&self.words) == before,
                "state after {expected:?}: {}",
                name()
            );
        }
        self.compare_state(name);
        self.compare_acknowledgement(expected, &answer, next_number, name);
        expected
    }

    fn compare_acknowledgement(
        &self,
        expected: Answer,
        answer: &[u64; ANSWER_WORDS],
        next_number: u16,
        name: &dyn Fn() -> String,
    ) {
        let acknowledgement = self.reference.acknowledgement(expected, next_number);
        self.plain
            .acknowledge(answer, next_number, acknowledgement, name);
        let expected = (
            u32::from(acknowledgement.is_some()),
            acknowledgement.unwrap_or([0xa5; 10]),
        );
        let got = acknowledged(&self.words, answer, next_number);
        assert_eq!(got, expected, "{}", name());
        let got = acknowledged_by_value(self.by_value.words(), answer, next_number);
        assert_eq!(got, expected, "by value: {}", name());
    }

    fn compare_state(&self, name: &dyn Fn() -> String) {
        let mut description = [JUNK; DESCRIPTION_WORDS];
        raw::host_describe(&self.words, &mut description);
        assert!(
            description == description_of(&self.reference),
            "description: {}",
            name()
        );
        let got = Host::from_words(&self.words).to_words();
        assert!(got == self.reference.to_words(), "state: {}", name());
        let got = Host::from_words(self.by_value.words()).to_words();
        assert!(got == self.reference.to_words(), "by value: {}", name());
        let got = Host::from_words(&self.plain.host_words()).to_words();
        let expected = self.reference.to_words();
        assert!(got == expected, "state of the plain host: {}", name());
    }

    /// What both hosts left.
    pub fn memory(&self) -> &[u8] {
        &self.memory
    }

    /// The proved host's state.
    pub fn words(&self) -> &[u64; HOST_WORDS] {
        &self.words
    }
}

/// Whether an acknowledgement is due, and the buffer for it after the call.
pub fn acknowledged(
    words: &[u64; HOST_WORDS],
    answer: &[u64; ANSWER_WORDS],
    number: u16,
) -> (u32, [u8; 10]) {
    let mut frame = [0xa5; 10];
    let due = raw::host_acknowledge(words, answer, number, &mut frame);
    (due, frame)
}

/// The same by value.
pub fn acknowledged_by_value(
    words: &[u64; HOST_WORDS],
    answer: &[u64; ANSWER_WORDS],
    number: u16,
) -> (u32, [u8; 10]) {
    let mut frame = [0xa5; 10];
    let due = raw::host_acknowledge_by_value(words, answer, number, &mut frame);
    (due, frame)
}

/// What a kind of answer does not have is 0.
pub fn answer_words(answer: Answer) -> [u64; ANSWER_WORDS] {
    match answer {
        Answer::Accepted {
            number,
            messages,
            bytes,
            completed,
            run,
        } => {
            let number = number.into();
            [1, number, messages, bytes, completed, 0, 0, run.into()]
        }
        Answer::Again { number, run } => [2, number.into(), 0, 0, 0, 0, 0, run.into()],
        Answer::NoMessages => [3, 0, 0, 0, 0, 0, 0, 0],
        Answer::Refused { number, place } => [4, 0, 0, 0, 0, number.into(), place as u64, 0],
    }
}

fn description_of(host: &Host) -> [u64; DESCRIPTION_WORDS] {
    let ((own, peer), next, lowest) = (host.ids(), host.next(), host.lowest());
    let mut words = vec![own.into(), peer.into(), next.into(), host.marks()];
    words.extend([u64::from(lowest), host.closed_marks().into()]);
    let open = host.open_in_order();
    words.push(open.len() as u64);
    for (number, entry) in open {
        let terms = entry.terms;
        words.extend([u64::from(number), terms.completion_address.into()]);
        words.extend([
            u64::from(terms.completion_value),
            terms.count.into(),
            entry.received.into(),
        ]);
    }
    words.resize(DESCRIPTION_WORDS, 0);
    words.try_into().expect("there are no more than 32")
}
