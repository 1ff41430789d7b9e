//! Compares the plain fast table with the reference's, answer by answer and byte by byte:
//! registerings, removals and frames of up to sixteen cards, good and bad, and memories
//! that end too soon.

use bench::plain::host::Answer;
use bench::plain::table as plain;
use bench::shapes::{CARDS, Cards, Order, SHAPES};
use bench::tables::{ChangeRun, Given, HostRun, OpenRun, TableRun, Timed, compare};
use reference::aimed;
use reference::host::{self, Host};
use reference::rng::Rng;
use reference::table::{Region, Table, source_of};

/// The reference's answer in the plain table's form.
fn converted(answer: host::Answer) -> Answer {
    match answer {
        host::Answer::Accepted {
            number,
            messages,
            bytes,
            completed,
            run,
        } => Answer::Accepted {
            number,
            messages: messages as u32,
            bytes: bytes as u32,
            completed: completed as u32,
            run,
        },
        host::Answer::Again { number, run } => Answer::Again { number, run },
        host::Answer::NoMessages => Answer::NoMessages,
        host::Answer::Refused { number, place } => Answer::Refused {
            number,
            place: place as u32,
        },
    }
}

/// Both tables with a memory each, and how often each refusal was met, 0 for none.
struct Both {
    rng: Rng,
    own: u16,
    reference: Table,
    plain: plain::Table,
    expected: Vec<u8>,
    memory: Vec<u8>,
    met_at_registering: [u64; 32],
    met_at_removing: [u64; 32],
    met_at_receiving: [u64; 32],
}

impl Both {
    fn new(seed: u64, own: u16, memory: usize) -> Both {
        let (reference, expected) = Table::open(own);
        let (plain, refusal) = plain::Table::open(own);
        assert_eq!(refusal, expected);
        let mut rng = Rng::new(seed);
        let memory = rng.bytes(memory);
        Both {
            rng,
            own,
            reference,
            plain,
            expected: memory.clone(),
            memory,
            met_at_registering: [0; 32],
            met_at_removing: [0; 32],
            met_at_receiving: [0; 32],
        }
    }

    fn register(&mut self, source: u16, first: u64, length: u64, memory: u64) {
        let region = Region { first, length };
        let expected = self.reference.register(source, region, memory);
        let got = self.plain.register(source, first, length, memory);
        assert_eq!(got, expected, "register {source} {first} {length} {memory}");
        self.met_at_registering[usize::from(got.err().unwrap_or(0))] += 1;
    }

    fn remove(&mut self, source: u16) {
        let got = self.plain.remove(source);
        assert_eq!(got, self.reference.remove(source), "remove {source}");
        self.met_at_removing[usize::from(got.err().unwrap_or(0))] += 1;
    }

    fn receive(&mut self, frame: &[u8], lent: usize) {
        let expected = self.reference.receive(frame, &mut self.expected[..lent]);
        let got = self.plain.receive(frame, &mut self.memory[..lent]);
        assert_eq!(got, converted(expected), "{frame:?} with {lent} bytes");
        assert_eq!(self.memory, self.expected, "{frame:?} with {lent} bytes");
        let (source, next) = (source_of(frame).unwrap_or(0), self.rng.next_u16());
        assert_eq!(
            self.plain.acknowledgement(got, source, next),
            self.reference.acknowledgement(expected, source, next)
        );
        let number = match got {
            Answer::Refused { number, .. } => number,
            _ => 0,
        };
        self.met_at_receiving[usize::from(number)] += 1;
    }

    fn any_source(&mut self) -> u16 {
        match self.rng.below(10) {
            0 => 0,
            1 => self.own,
            2 => self.rng.next_u16(),
            _ => self.rng.between(2, 30) as u16,
        }
    }

    fn register_any(&mut self) {
        let source = self.any_source();
        let memory = self.memory.len() as u64;
        let any = self.rng.below(self.memory.len() + 2) as u64;
        let length = self.rng.between(4, 24) as u64;
        let cards = self.reference.cards();
        let (first, length) = match self.rng.below(12) {
            0 => (any, 0),
            1 => (memory - length + 1, length),
            2 => (length, u64::MAX - length + 1),
            3 => (u64::MAX, u64::MAX),
            4..8 if !cards.is_empty() => {
                let Region { first, .. } = self.rng.pick(&cards).region;
                let end = self.rng.pick(&cards).region.bytes().end as u64;
                let before = (first.saturating_sub(length), length);
                self.rng.pick(&[(end, length), (end - 1, 1), before])
            }
            _ => (any, length),
        };
        // A region past the memory that is there gets 31 with every frame.
        let told = self
            .rng
            .pick(&[memory, memory, memory, memory, any, u64::MAX]);
        self.register(source, first, length, told);
    }

    fn receive_any(&mut self) {
        let cards = self.reference.cards();
        let (pair, region) = match cards[..] {
            [_, ..] if self.rng.chance(11, 12) => {
                let card = self.rng.pick(&cards);
                let pair = self.reference.take(card.source);
                (pair.expect("it is registered"), card.region)
            }
            _ => {
                let pair = Host::starting_at(self.own, self.any_source(), 0, 0);
                let region = Region {
                    first: 0,
                    length: 20,
                };
                (pair, region)
            }
        };
        let mut frame = aimed::frame(&mut self.rng, &pair, region.length);
        if self.rng.chance(1, 6) {
            frame = aimed::damaged(&mut self.rng, &frame);
        }
        let end = (region.bytes().end as usize).min(self.memory.len());
        let lent = match self.rng.below(16) {
            0 => end,
            1 => end - 1,
            2 => self.rng.below(self.memory.len() + 1),
            _ => self.memory.len(),
        };
        self.receive(&frame, lent);
    }
}

#[test]
fn agrees_on_registerings_removals_and_frames() {
    let mut met = [[0; 32]; 3];
    for seed in 0..60 {
        let own = [1, 1, 1, 2, 300, 0][seed as usize % 6];
        let mut both = Both::new(seed, own, 300);
        for _ in 0..2_000 {
            match both.rng.below(20) {
                0 | 1 => both.register_any(),
                2 if both.rng.chance(1, 3) => {
                    let source = both.any_source();
                    both.remove(source);
                }
                _ => both.receive_any(),
            }
        }
        let each = [
            both.met_at_registering,
            both.met_at_removing,
            both.met_at_receiving,
        ];
        for (met, each) in met.iter_mut().zip(each) {
            for (met, each) in met.iter_mut().zip(each) {
                *met += each;
            }
        }
    }
    println!("{met:?}");
    let [registering, removing, receiving] = met;
    for number in [0, 13, 28, 29, 30, 31] {
        assert!(registering[number] >= 20, "register with {number}");
    }
    assert!(removing[0] >= 20 && removing[3] >= 20);
    for number in (0..=12).chain([31]) {
        assert!(receiving[number] >= 20, "receive with {number}");
    }
}

/// Sixteen cards at once, at numbers that wrap; every frame of each is accepted.
#[test]
fn sixteen_cards_go_on_past_the_end_of_the_frame_numbers() {
    const REGION: usize = 1 << 12;
    const ARRIVALS: usize = 70_016;
    let mut table = plain::Table::open(1).0;
    let mut memory = vec![0; 16 * REGION];
    let length = memory.len() as u64;
    let sources: Vec<u16> = (0..16).map(|card| 4_099 * card + 2).collect();
    for (source, card) in sources.iter().zip(0..) {
        let first = card * REGION as u64;
        let registered = table.register(*source, first, REGION as u64, length);
        assert_eq!(registered, Ok(()));
    }
    let shape = SHAPES.iter().find(|shape| shape.order == Order::Reordered);
    let shape = shape.expect("one is out of order");
    let mut frames = shape.frames(ARRIVALS, REGION);
    let mut total = 0;
    for frame in frames.chunks_mut(shape.size()) {
        for source in &sources {
            frame[2..4].copy_from_slice(&source.to_le_bytes());
            if let Answer::Accepted { bytes, .. } = table.receive(frame, &mut memory) {
                total += u64::from(bytes);
            }
        }
    }
    assert_eq!(total, 16 * shape.accepted_bytes(ARRIVALS));
    let (first, others) = memory.split_at(REGION);
    assert!(others.chunks(REGION).all(|region| region == first));
    assert!(first.iter().any(|byte| *byte > 0));
}

/// The frames that tables are timed on: all are accepted but repeats, and hosts in the places
/// of the cards answer the same. No card that registers to be timed is refused.
#[test]
fn timed_frames_are_accepted() {
    use bench::plain::host::Host as PlainHost;
    let arrivals = 32 * CARDS;
    for shape in SHAPES {
        for cards in [Cards::At(0), Cards::At(CARDS - 1), Cards::InTurn] {
            let frames = shape.frames_of(cards, arrivals);
            let given = Given {
                frames: &frames,
                size: shape.size(),
                cards,
                passes: 2,
            };
            compare::<plain::Table, plain::Table>(given);
            let mut table = TableRun::<plain::Table>::new(given);
            let mut hosts = HostRun::<PlainHost>::new(given);
            for _ in 0..2 {
                let expected = 2 * shape.accepted_bytes(arrivals);
                for timed in [&mut table as &mut dyn Timed, &mut hosts] {
                    timed.ready();
                    assert_eq!(timed.turn(), expected, "{}, {cards:?}", shape.name);
                }
            }
        }
    }
    assert_eq!(ChangeRun::<plain::Table>::new().turn(), 0);
    assert_eq!(OpenRun::<PlainHost>::new().turn(), 0);
}
