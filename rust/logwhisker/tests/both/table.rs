//! The proved table beside the independent one: after every call its answer, the cards with
//! their regions, each card's pair and memory are compared. A call that is refused leaves
//! all words of the table as they were, also bits that have no meaning.

use logwhisker::raw::{self, ANSWER_WORDS, HOST_WORDS, TABLE_DESCRIPTION_WORDS, TABLE_WORDS};
use logwhisker::{Description, Host as Proved};
use reference::host::{Answer, Host};
use reference::table::{Region, Registered, Table, source_of};

/// Bytes on both sides of memory that must stay as they are.
const MARGIN: usize = 64;
/// What buffers hold that a call is to write whole, or not at all.
const JUNK: u64 = 0xa5a5_a5a5_a5a5_a5a5;

/// Both tables, and the memory of each.
#[derive(Clone)]
pub struct Both {
    words: [u64; TABLE_WORDS],
    /// With a margin on both sides.
    lent: Vec<u8>,
    reference: Table,
    memory: Vec<u8>,
    /// The calls so far, for the message of a failure.
    calls: Vec<String>,
}

impl Both {
    /// Both opened; how that is answered is compared and told.
    pub fn open(own: u16, memory: &[u8]) -> (Both, Result<(), u8>) {
        let mut words = [JUNK; TABLE_WORDS];
        let got = raw::table_open(&mut words, own);
        let (reference, refusal) = Table::open(own);
        let margin = [0xa5; MARGIN];
        let mut both = Both {
            words,
            lent: [&margin[..], memory, &margin].concat(),
            reference,
            memory: memory.to_vec(),
            calls: Vec::new(),
        };
        let opened = refusal.map_or(Ok(()), Err);
        both.note(format!("open {own} with {} bytes", memory.len()));
        both.assert_done(got, opened);
        both.compare();
        (both, opened)
    }

    fn note(&mut self, call: String) {
        self.calls.push(call);
    }

    /// The last calls, the latest one at the end.
    fn name(&self) -> String {
        let last = self.calls.len().saturating_sub(30);
        self.calls[last..].join("; ")
    }

    fn assert_done(&self, got: u32, expected: Result<(), u8>) {
        let expected = expected.map_or_else(u32::from, |()| 0);
        assert_eq!(got, expected, "{}", self.name());
    }

    /// Compares what both have done, and tells it.
    fn done(
        &mut self,
        before: &[u64; TABLE_WORDS],
        got: u32,
        expected: Result<(), u8>,
    ) -> Result<(), u8> {
        self.assert_done(got, expected);
        if expected.is_err() {
            assert!(self.words == *before, "words as they were: {}", self.name());
        }
        self.compare();
        expected
    }

    /// Registers a card at both.
    pub fn register(&mut self, source: u16, region: Region, memory: u64) -> Result<(), u8> {
        self.note(format!("register {source} {region:?} of {memory}"));
        let before = self.words;
        let [first, size, told] = [region.first, region.length, memory].map(|n| n as usize);
        let got = raw::table_register(&mut self.words, source, first, size, told);
        let expected = self.reference.register(source, region, memory);
        self.done(&before, got, expected)
    }

    /// Both adopt the pair that these words are.
    pub fn adopt(
        &mut self,
        pair: &[u64; HOST_WORDS],
        region: Region,
        memory: u64,
    ) -> Result<(), u8> {
        self.note(format!("adopt {:x?} {region:?} of {memory}", &pair[..3]));
        let before = self.words;
        let [first, size, told] = [region.first, region.length, memory].map(|n| n as usize);
        let got = raw::table_adopt(&mut self.words, pair, first, size, told);
        let pair = Host::from_words(pair);
        let expected = self.reference.adopt(&pair, region, memory);
        self.done(&before, got, expected)
    }

    /// Removes a card at both.
    pub fn remove(&mut self, source: u16) -> Result<(), u8> {
        self.note(format!("remove {source}"));
        let before = self.words;
        let got = raw::table_remove(&mut self.words, source);
        let expected = self.reference.remove(source);
        self.done(&before, got, expected)
    }

    /// Takes a card's pair out, as the words that the proved table gives.
    pub fn take(&mut self, source: u16) -> Result<[u64; HOST_WORDS], u8> {
        self.note(format!("take {source}"));
        let before = self.words;
        let taken = self.compare_pair(source);
        assert!(self.words == before, "words as they were: {}", self.name());
        taken
    }

    /// Lets both have the frame with the first bytes of the memory, and gives what both
    /// answer. `next_number` goes into the acknowledgement.
    pub fn receive(&mut self, frame: &[u8], lent: usize, next_number: u16) -> Answer {
        self.note(format!("deliver {} to {lent} bytes", hex(frame)));
        let before = self.words;
        let mut answer = [JUNK; ANSWER_WORDS];
        let mut source = 0xa5a5;
        let kind = raw::table_receive(
            &mut self.words,
            frame,
            &mut self.lent[MARGIN..MARGIN + lent],
            &mut source,
            &mut answer,
        );
        let expected = self.reference.receive(frame, &mut self.memory[..lent]);
        assert_eq!(answer, answer_words(expected), "{}", self.name());
        assert_eq!(u64::from(kind), answer[0], "kind: {}", self.name());
        // A byte that the frame does not have counts as 0.
        let named = source_of(frame).unwrap_or(frame.get(2).copied().unwrap_or(0).into());
        assert_eq!(source, named, "source: {}", self.name());
        if !matches!(expected, Answer::Accepted { .. }) {
            assert!(self.words == before, "words as they were: {}", self.name());
        }
        self.compare();
        self.compare_acknowledgement(expected, &answer, source, next_number);
        expected
    }

    fn compare_acknowledgement(
        &self,
        expected: Answer,
        answer: &[u64; ANSWER_WORDS],
        source: u16,
        next_number: u16,
    ) {
        let expected = self
            .reference
            .acknowledgement(expected, source, next_number);
        let mut frame = [0xa5; 10];
        let due = raw::table_acknowledge(&self.words, source, answer, next_number, &mut frame);
        assert_eq!(due, u32::from(expected.is_some()), "{}", self.name());
        assert_eq!(frame, expected.unwrap_or([0xa5; 10]), "{}", self.name());
    }

    /// Compares cards, pairs and memory.
    fn compare(&self) {
        let (own, cards) = described(&self.words);
        assert_eq!(own, self.reference.own(), "{}", self.name());
        assert_eq!(cards, self.reference.cards(), "{}", self.name());
        for card in cards {
            let taken = self.compare_pair(card.source);
            assert!(taken.is_ok(), "{}", self.name());
        }
        let (before, rest) = self.lent.split_at(MARGIN);
        let (memory, behind) = rest.split_at(self.memory.len());
        let mut pairs = memory.iter().zip(&self.memory);
        let at = pairs.position(|(got, expected)| got != expected);
        assert_eq!(at, None, "memory: {}", self.name());
        let mut beside = before.iter().chain(behind);
        let beside = beside.all(|byte| *byte == 0xa5);
        assert!(beside, "beside memory: {}", self.name());
    }

    /// Compares one pair by its words and by its description.
    fn compare_pair(&self, source: u16) -> Result<[u64; HOST_WORDS], u8> {
        let mut pair = [JUNK; HOST_WORDS];
        let refusal = raw::table_take(&self.words, source, &mut pair);
        match self.reference.take(source) {
            Ok(expected) => {
                assert_eq!(refusal, 0, "{source}: {}", self.name());
                let same = Host::from_words(&pair) == expected;
                assert!(same, "pair of {source}: {}", self.name());
                let description = Proved::from_words(pair).describe();
                let same = describes(&description, &expected);
                assert!(same, "description of {source}: {}", self.name());
                Ok(pair)
            }
            Err(number) => {
                assert_eq!(refusal, u32::from(number), "{source}: {}", self.name());
                let same = pair == [JUNK; HOST_WORDS];
                assert!(same, "buffer as it was: {}", self.name());
                Err(number)
            }
        }
    }

    /// What both tables left.
    pub fn memory(&self) -> &[u8] {
        &self.memory
    }

    /// The independent table.
    pub fn table(&self) -> &Table {
        &self.reference
    }
}

/// Our ID and the cards by the first byte of their regions, as the proved table describes
/// itself. Free places say nothing.
fn described(words: &[u64; TABLE_WORDS]) -> (u16, Vec<Registered>) {
    let mut description = [JUNK; TABLE_DESCRIPTION_WORDS];
    raw::table_describe(words, &mut description);
    let entries: &[[u64; 3]] = description[1..].as_chunks().0;
    let mut cards = Vec::new();
    for &[source, first, length] in entries {
        if source == 0 {
            assert_eq!([first, length], [0, 0], "a free place has no region");
            continue;
        }
        cards.push(Registered {
            source: u16::try_from(source).expect("an ID has 16 bits"),
            region: Region { first, length },
        });
    }
    cards.sort_by_key(|card| card.region.first);
    let own = u16::try_from(description[0]).expect("an ID has 16 bits");
    (own, cards)
}

fn describes(description: &Description, host: &Host) -> bool {
    let open = host.open_in_order();
    let mut pairs = description.open().iter().zip(&open);
    (description.own, description.peer) == host.ids()
        && (description.next, description.marks) == (host.next(), host.marks())
        && (description.lowest, description.closed) == (host.lowest(), host.closed_marks())
        && description.open().len() == open.len()
        && pairs.all(|(got, (number, entry))| {
            let terms = entry.terms;
            (got.number, got.address) == (*number, terms.completion_address)
                && (got.value, got.count) == (terms.completion_value, terms.count)
                && got.received == entry.received
        })
}

/// What a kind of answer does not have is 0.
pub fn answer_words(answer: Answer) -> [u64; ANSWER_WORDS] {
    match answer {
        Answer::Accepted {
            number,
            messages,
            bytes,
            completed,
            run,
        } => {
            let number = number.into();
            [1, number, messages, bytes, completed, 0, 0, run.into()]
        }
        Answer::Again { number, run } => [2, number.into(), 0, 0, 0, 0, 0, run.into()],
        Answer::NoMessages => [3, 0, 0, 0, 0, 0, 0, 0],
        Answer::Refused { number, place } => [4, 0, 0, 0, 0, number.into(), place as u64, 0],
    }
}

fn hex(bytes: &[u8]) -> String {
    let shown = &bytes[..bytes.len().min(400)];
    shown.iter().map(|byte| format!("{byte:02x}")).collect()
}
