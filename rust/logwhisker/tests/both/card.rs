//! The proved card beside the independent one: after every call its answer, the part that it
//! hands out, the slots and the state are compared.

use logwhisker::raw::{self, CARD_WORDS};
use reference::card::Card;
use reference::card_calls::{Call, Outcome, expected, frame};

/// Bytes on both sides of the slots that must stay as they are.
const MARGIN: usize = 64;
/// What numbers hold that a call is to write, or to leave as they are where it is refused.
const JUNK: u32 = 0xa5a5_a5a5;

/// What the proved card gives; that refused calls leave numbers and parts as they should is
/// checked.
fn got(words: &mut [u64; CARD_WORDS], slots: &mut [u8], call: &Call) -> Outcome {
    let lent = call.lent(slots.len());
    let slots = &mut slots[..lent];
    let refused =
        |refusal: u32| Outcome::Refused(refusal.try_into().expect("a refusal is a small number"));
    match call {
        Call::Open {
            count,
            address,
            value,
        } => {
            let mut transaction = JUNK;
            match raw::card_open_transaction(words, *count, *address, *value, &mut transaction) {
                0 => Outcome::Number(transaction),
                refusal => {
                    assert_eq!(transaction, JUNK, "the number of a refused opening");
                    refused(refusal)
                }
            }
        }
        Call::Add {
            transaction,
            address,
            data,
            ..
        } => match raw::card_add(words, slots, *transaction, *address, data) {
            0 => Outcome::Done,
            refusal => refused(refusal),
        },
        Call::Seal { .. } => {
            let mut number = JUNK as u16;
            match raw::card_seal(words, slots, &mut number) {
                0 => Outcome::Number(number.into()),
                refusal => {
                    assert_eq!(number, JUNK as u16, "the number of a refused sealing");
                    refused(refusal)
                }
            }
        }
        Call::Read(frame) => match raw::card_read(words, frame) {
            0 => Outcome::Done,
            refusal => refused(refusal),
        },
        Call::Show { number, .. } => {
            let mut part = [JUNK.into(); 2];
            let refusal = raw::card_show(words, slots, *number, &mut part);
            if refusal != 0 {
                assert_eq!(part, [0; 2], "the part of a refused showing");
                return refused(refusal);
            }
            let [offset, length] = part.map(|number| number as usize);
            frame(offset, &slots[offset..offset + length])
        }
        Call::Choose { lent, .. } => {
            let mut part = [JUNK.into(); 3];
            let refusal = raw::card_choose(words, slots, lent, &mut part);
            if refusal != 0 {
                assert_eq!(part, [0; 3], "the part of a refused choice");
                return refused(refusal);
            }
            let [from, offset, length] = part.map(|number| number as usize);
            match from {
                1 => Outcome::Lent(lent[offset..offset + length].to_vec()),
                0 => frame(offset, &slots[offset..offset + length]),
                _ => panic!("a part of neither buffer: {part:?}"),
            }
        }
    }
}

/// The bits of a card's words that have a meaning.
fn named(words: &[u64; CARD_WORDS]) -> [u64; CARD_WORDS] {
    let mut named = *words;
    named[1] &= (1 << 48) - 1;
    named[4] &= u64::from(u32::MAX);
    for place in 0..32 {
        named[22 + 2 * place] &= (1 << 48) - 1;
    }
    named
}

/// Both cards, and the slots of each.
pub struct Both {
    words: [u64; CARD_WORDS],
    /// With a margin on both sides.
    lent: Vec<u8>,
    reference: Card,
    slots: Vec<u8>,
}

impl Both {
    /// Both opened; how that is answered is compared.
    pub fn open(own: u16, peer: u16, limit: usize, slots: &[u8]) -> Both {
        let mut words = [JUNK.into(); CARD_WORDS];
        let got = raw::card_open(&mut words, own, peer, limit, slots);
        let (reference, refusal) = Card::open(own, peer, limit, slots);
        assert_eq!(
            got,
            refusal.unwrap_or(0).into(),
            "{own} {peer} {limit} {}",
            slots.len()
        );
        let both = Both::new(words, reference, slots);
        both.compare_state(&|| format!("opening {own} {peer} {limit} {}", slots.len()));
        both
    }

    /// Both in the state that these words are.
    pub fn from_words(words: [u64; CARD_WORDS], slots: &[u8]) -> Both {
        Both::new(words, Card::from_words(&words), slots)
    }

    fn new(words: [u64; CARD_WORDS], reference: Card, slots: &[u8]) -> Both {
        let margin = [0x5a; MARGIN];
        Both {
            words,
            lent: [&margin[..], slots, &margin].concat(),
            reference,
            slots: slots.to_vec(),
        }
    }

    /// Does the call on both, and gives what both give.
    pub fn call(&mut self, call: &Call, name: &dyn Fn() -> String) -> Outcome {
        let before = named(&self.words);
        let end = MARGIN + self.slots.len();
        let got = got(&mut self.words, &mut self.lent[MARGIN..end], call);
        let expected = expected(&mut self.reference, &mut self.slots, call);
        assert_eq!(got, expected, "{call:?}: {}", name());
        if matches!(call, Call::Add { .. }) {
            let at = self.lent[MARGIN..end]
                .iter()
                .zip(&self.slots)
                .position(|(a, b)| a != b);
            assert_eq!(at, None, "slots after {call:?}: {}", name());
            let margins = self.lent[..MARGIN].iter().chain(&self.lent[end..]);
            assert!(
                margins.into_iter().all(|byte| *byte == 0x5a),
                "beside the slots: {}",
                name()
            );
        }
        if matches!(
            expected,
            Outcome::Refused(_) | Outcome::Frame(..) | Outcome::Lent(_)
        ) {
            assert!(
                named(&self.words) == before,
                "state after {call:?}: {}",
                name()
            );
        }
        self.compare_state(&|| format!("{call:?}: {}", name()));
        expected
    }

    /// Lets the independent card start anew from the proved one's words: what a state
    /// that no run reaches comes to is said step by step.
    pub fn decode(&mut self) {
        self.reference = Card::from_words(&self.words);
    }

    fn compare_state(&self, name: &dyn Fn() -> String) {
        let got = Card::from_words(&self.words).to_words();
        let expected = self.reference.to_words();
        let differing = (0..CARD_WORDS).find(|index| got[*index] != expected[*index]);
        assert_eq!(
            differing,
            None,
            "the first word that differs, after {}",
            name()
        );
    }

    /// The proved card's state.
    pub fn words(&self) -> &[u64; CARD_WORDS] {
        &self.words
    }

    /// The slots of both.
    pub fn slots(&self) -> &[u8] {
        &self.slots
    }
}
