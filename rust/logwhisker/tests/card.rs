//! Compares the proved card with the independent one through the exported functions: after
//! every call the answer, the part that is handed out, the slots and the state, in states
//! that runs reach and in any others. `LW_SEED` and `LW_CALLS_OF_CARD` choose the seed and
//! the number of generated calls; a difference is shown with the seed, the run and the call.

#[path = "both/card.rs"]
mod both;
mod faulty_card;

use both::Both;
use faulty_card::{Fault, Faulty};
use logwhisker::raw::CARD_WORDS;
use logwhisker::{Card as Proved, Chosen, Refusal};
use reference::card::{Card, SLOTS};
use reference::card_calls::{Aim, Call, Outcome};
use reference::cases::{WHOLE_CASE, WHOLE_CASE_ACKNOWLEDGEMENT};
use reference::rng::Rng;
use reference::settings::{count_from_env, number_from_env};
use reference::wire;

const DEFAULT_SEED: u64 = 1;
const DEFAULT_CALLS: u64 = 600_000;
/// Calls of one run.
const RUN: u64 = 1_500;
const KINDS: [&str; 6] = ["open", "add", "seal", "read", "show", "choose"];

/// How often each outcome was met, by the kind of the call.
#[derive(Default)]
struct Tally {
    calls: u64,
    fine: [u64; 6],
    refused: [[u64; 28]; 6],
    lent: u64,
}

impl Tally {
    fn add(&mut self, call: &Call, outcome: &Outcome) {
        self.calls += 1;
        let kind = call.kind();
        match outcome {
            Outcome::Refused(number) => self.refused[kind][usize::from(*number)] += 1,
            _ => self.fine[kind] += 1,
        }
        self.lent += u64::from(matches!(outcome, Outcome::Lent(_)));
    }

    fn print(&self, seed: u64, runs: u64) {
        println!(
            "seed {seed}: {} calls in {runs} runs or states, {} acknowledgements chosen",
            self.calls, self.lent
        );
        for (kind, name) in KINDS.iter().enumerate() {
            let refused = self.refused[kind]
                .iter()
                .enumerate()
                .filter(|(_, met)| **met > 0);
            let refused: Vec<String> = refused
                .map(|(number, met)| format!("{number}: {met}"))
                .collect();
            println!("  {name}: {} done, refused {refused:?}", self.fine[kind]);
        }
    }

    /// Without these numbers an agreement could be one about next to nothing. Each is of
    /// 100,000 calls.
    fn assert_enough(&self, fine: [u64; 6], refused: &[(usize, usize, u64)]) {
        let wanted = |in_100_000| self.calls * in_100_000 / 100_000;
        for (kind, least) in fine.iter().enumerate() {
            let met = self.fine[kind];
            assert!(
                met >= wanted(*least),
                "{} done {met} times of {}",
                KINDS[kind],
                self.calls
            );
        }
        for &(kind, number, least) in refused {
            let met = self.refused[kind][number];
            assert!(
                met >= wanted(least),
                "{} refused with {number} {met} times of {}",
                KINDS[kind],
                self.calls
            );
        }
        assert!(self.lent >= wanted(200));
    }
}

/// The refusals that every kind of call has to meet.
const REFUSALS: [(usize, usize, u64); 17] = [
    (0, 20, 300),
    (1, 26, 100),
    (1, 23, 1_000),
    (1, 27, 50),
    (1, 21, 50),
    (1, 22, 500),
    (2, 26, 50),
    (2, 24, 500),
    (3, 1, 50),
    (3, 2, 10),
    (3, 3, 50),
    (3, 4, 50),
    (3, 5, 50),
    (4, 26, 50),
    (4, 25, 1_000),
    (5, 26, 50),
    (5, 25, 200),
];

fn calls() -> u64 {
    count_from_env("LW_CALLS_OF_CARD", DEFAULT_CALLS)
}

fn seed() -> u64 {
    number_from_env("LW_SEED", DEFAULT_SEED)
}

/// A run's aim and the card it is for, with slots of any bytes.
fn begin(seed: u64, run: u64) -> (Aim, usize, Vec<u8>) {
    let mut rng = Rng::new(seed.wrapping_mul(1_000_003).wrapping_add(run));
    let limit = match rng.below(60) {
        0 => 9_000,
        _ => rng.pick(&[34, 35, 42, 66, 67, 100, 130, 300]),
    };
    let slots = rng.bytes(SLOTS * limit);
    let deaf = rng.chance(1, 6);
    (Aim { rng, deaf }, limit, slots)
}

#[test]
fn calls_of_every_kind() {
    let (seed, calls) = (seed(), calls());
    let mut tally = Tally::default();
    let mut runs = 0;
    while tally.calls < calls {
        let (mut aim, limit, slots) = begin(seed, runs);
        // Every third run is soon past the ends of the numbers.
        let mut both = match runs % 3 {
            0 => {
                let (frame, transaction) = (
                    65_536 - aim.rng.between(1, 90),
                    u32::MAX - aim.rng.below(60) as u32,
                );
                let card = Card::starting_at(1, 2, limit, frame as u16, transaction);
                Both::from_words(card.to_words(), &slots)
            }
            _ => Both::open(1, 2, limit, &slots),
        };
        for index in 0..if limit == 9_000 { 100 } else { RUN } {
            let call = aim.call(both.words());
            let outcome = both.call(&call, &|| format!("seed {seed}, run {runs}, call {index}"));
            tally.add(&call, &outcome);
        }
        runs += 1;
    }
    tally.print(seed, runs);
    if calls >= 100_000 {
        tally.assert_enough([3_000, 3_000, 3_000, 5_000, 1_000, 1_000], &REFUSALS);
    }
}

/// All frame numbers wrap, with a transaction that stays open all the while and
/// others that finish, whose last frames' numbers wrap too.
#[test]
fn frame_numbers_that_come_round() {
    let seed = seed();
    let limit = 66;
    let slots = vec![0; SLOTS * limit];
    let mut both = Both::open(1, 2, limit, &slots);
    let mut rng = Rng::new(seed);
    let name = || format!("seed {seed}");
    let open = |count| Call::Open {
        count,
        address: 0,
        value: 1,
    };
    let add = |transaction| Call::Add {
        transaction,
        address: 0,
        data: Vec::new(),
        short: false,
    };
    both.call(&open(65_535), &name);
    let (mut sealed, mut opened) = (0u32, 1u32);
    while sealed < 66_500 {
        for _ in 0..rng.between(1, 40) {
            // Now and then the one that stays open has the frame's other message.
            if let Outcome::Number(transaction) = both.call(&open(1), &name) {
                opened += 1;
                both.call(&add(transaction), &name);
            }
            if rng.chance(1, 3) || both.words()[0] >> 48 == 0 {
                both.call(&add(0), &name);
            }
            sealed += u32::from(matches!(
                both.call(&Call::Seal { short: false }, &name),
                Outcome::Number(_)
            ));
        }
        let start = (both.words()[1] >> 32) as u16;
        let frame = wire::ack_frame(1, 2, 0, start, rng.between(1, 80) as u8);
        both.call(&Call::Read(frame.to_vec()), &name);
    }
    // No more than 32 before the one with 65,535 messages is finished, and many after.
    println!("seed {seed}: {sealed} frames, {opened} transactions");
    assert!(opened > 500, "{opened} opened");
}

/// Any words: of every kind of value for each field, and of none in particular.
fn any_words(rng: &mut Rng, limit: usize) -> [u64; CARD_WORDS] {
    let mut words = [0; CARD_WORDS];
    words.fill_with(|| rng.next_u64());
    if rng.chance(1, 8) {
        return words;
    }
    let next = any_frames(&mut words, limit, rng);
    let lowest = rng.pick(&[0, 1, u64::from(u32::MAX), words[3] >> 32]);
    let opened = match rng.below(6) {
        0 => 0,
        1 => rng.pick(&[31, 32, 33, 64, 1 << 31, u64::from(u32::MAX)]),
        _ => rng.below(33) as u64,
    };
    words[3] = ((lowest + opened) & u64::from(u32::MAX)) | lowest << 32;
    words[4] = any_marks(rng);
    for entry in 0..32 {
        let unnamed = words[22 + 2 * entry] >> 48 << 48;
        words[22 + 2 * entry] = any_entry(next, rng) | unnamed;
    }
    words
}

/// The words about frames; gives the number of the one being built.
fn any_frames(words: &mut [u64; CARD_WORDS], limit: usize, rng: &mut Rng) -> u64 {
    let used = match rng.below(6) {
        0..3 => 0,
        3 => rng.below(12) as u64,
        4 => rng.below(limit + 2) as u64,
        _ => words[0] >> 48,
    };
    words[0] = 1 | 2 << 16 | (limit as u64) << 32 | used << 48;
    let last = rng.pick(&[10, 10, limit as u64, words[1] & 0xffff]);
    let base = rng.pick(&[0, 1, 65_500, 65_535, words[1] >> 32 & 0xffff]);
    let unreleased = match rng.below(6) {
        0 => 0,
        1 => rng.pick(&[63, 64, 65, 127, 32_768, 65_535]),
        2 => words[1] >> 48,
        _ => rng.below(65) as u64,
    };
    let next = (base + unreleased) & 0xffff;
    words[1] = last | next << 16 | base << 32 | words[1] >> 48 << 48;
    words[2] = any_marks(rng);
    for slot in 0..SLOTS {
        let size = match rng.below(8) {
            0 => 0,
            1 => rng.next_u16().into(),
            2 => limit as u64 + 1,
            _ => rng.below(limit + 1) as u64,
        };
        let at = 16 * (slot % 4);
        words[5 + slot / 4] = words[5 + slot / 4] & !(0xffff << at) | size << at;
    }
    next
}

/// Count, added and latest frame of a transaction: fewer added than there are to be, all, or
/// more, and the frame mostly near the one being built.
fn any_entry(next: u64, rng: &mut Rng) -> u64 {
    let count = rng.pick(&[0, 1, 1, 2, 3, 65_535]);
    let added = match rng.below(8) {
        0 => 65_535,
        1..4 => count.max(1),
        4 => (count + 1) & 0xffff,
        _ => rng.below(3) as u64,
    };
    let latest = match rng.below(4) {
        0 => rng.next_u16().into(),
        _ => (next + 65_536 - 70 + rng.below(140) as u64) & 0xffff,
    };
    count | added << 16 | latest << 32
}

fn any_marks(rng: &mut Rng) -> u64 {
    match rng.below(6) {
        0 => 0,
        1 => u64::MAX,
        2 => u64::MAX >> rng.below(64),
        3 => u64::MAX << rng.below(64),
        4 => rng.next_u64() & rng.next_u64(),
        _ => rng.next_u64(),
    }
}

/// States that no run reaches: marks past what is sealed or opened, more sealed than there
/// are slots, sizes that no frame has, more added than counted, and bits without a meaning.
#[test]
fn any_state_is_answered_alike() {
    let (seed, calls) = (seed(), calls());
    let mut tally = Tally::default();
    let mut states = 0;
    let mut rng = Rng::new(seed ^ 0x5eed);
    while tally.calls < calls {
        let limit = rng.pick(&[34, 35, 42, 66, 100]);
        let words = any_words(&mut rng, limit);
        // Any words mostly have another limit, which is as good as any.
        let told = (words[0] >> 32) as u16 as usize;
        let bytes = if told <= 9_000 && rng.chance(1, 2) {
            told
        } else {
            limit
        };
        let mut both = Both::from_words(words, &rng.bytes(SLOTS * bytes));
        let mut aim = Aim {
            rng: Rng::new(rng.next_u64()),
            deaf: false,
        };
        states += 1;
        for index in 0..rng.between(1, 10) {
            both.decode();
            let state = *both.words();
            let call = aim.call(&state);
            let name = || format!("seed {seed}, state {states}, call {index} in {state:x?}");
            let outcome = both.call(&call, &name);
            tally.add(&call, &outcome);
        }
    }
    tally.print(seed, states);
    if calls >= 100_000 {
        tally.assert_enough([3_000, 500, 3_000, 5_000, 1_000, 1_000], &REFUSALS);
    }
}

/// All marks set with nothing sealed and nothing opened release and finish nothing.
#[test]
fn marks_past_what_is_there_count_for_nothing() {
    let slots = vec![0; SLOTS * 34];
    let mut words = *Proved::open(1, 2, 34, &slots)
        .expect("a card can be opened")
        .words();
    words[2] = u64::MAX;
    words[4] = u64::MAX;
    let mut both = Both::from_words(words, &slots);
    let name = || "all marks".to_string();
    let frame = wire::ack_frame(1, 2, 0, 0, 255).to_vec();
    assert_eq!(both.call(&Call::Read(frame), &name), Outcome::Done);
    assert_eq!(both.words()[1] >> 32 & 0xffff, 0, "released");
    assert_eq!(both.words()[3], 0, "finished");
}

/// A transaction without a mark, all of whose messages are added and whose last frame is
/// neither unreleased nor being built, is not finished: no run reaches it, and the library
/// asks only for frames that a reading releases.
#[test]
fn a_transaction_without_a_mark_waits_for_its_last_frame() {
    let slots = vec![0; SLOTS * 34];
    let mut words = *Proved::open(1, 2, 34, &slots)
        .expect("a card can be opened")
        .words();
    words[3] = 1;
    words[22] = 1 | 1 << 16 | 65_535 << 32;
    let mut both = Both::from_words(words, &slots);
    let name = || "no mark".to_string();
    let frame = wire::ack_frame(1, 2, 0, 0, 255).to_vec();
    assert_eq!(both.call(&Call::Read(frame), &name), Outcome::Done);
    assert_eq!(both.words()[3], 1, "finished");
}

#[test]
fn openings() {
    let limits = [
        0,
        33,
        34,
        35,
        100,
        9_000,
        9_001,
        65_570,
        70_000,
        1 << 32,
        usize::MAX,
    ];
    let (mut opened, mut refused) = (0, [0; 2]);
    for limit in limits {
        let fitting = limit
            .checked_mul(SLOTS)
            .filter(|bytes| *bytes <= SLOTS * 70_000)
            .unwrap_or(0);
        for bytes in [
            fitting,
            fitting + 1,
            fitting.saturating_sub(1),
            0,
            64 * (limit & 0xffff),
        ] {
            let slots = vec![7; bytes];
            for (own, peer) in [(1, 2), (0, 2), (1, 0), (0, 0), (65_535, 65_535)] {
                let mut both = Both::open(own, peer, limit, &slots);
                let open = Call::Open {
                    count: 1,
                    address: 2,
                    value: 3,
                };
                let add = Call::Add {
                    transaction: 0,
                    address: 0,
                    data: Vec::new(),
                    short: false,
                };
                let name = || format!("{own} {peer} {limit} {bytes}");
                match Proved::open(own, peer, limit, &slots) {
                    Err(Refusal::ID_ZERO) => refused[0] += 1,
                    Err(Refusal::BAD_LIMIT_OR_SLOTS) => refused[1] += 1,
                    other => assert!(other.is_ok(), "{other:?}: {}", name()),
                }
                both.call(&open, &name);
                opened += u64::from(both.call(&add, &name) == Outcome::Done);
                both.call(&Call::Seal { short: false }, &name);
                both.call(&Call::Read(wire::ack_frame(0, 0, 0, 0, 1).to_vec()), &name);
            }
        }
    }
    assert!(opened >= 4 * 2, "{opened}");
    assert!(refused[0] > 50 && refused[1] > 50, "13, 26: {refused:?}");
}

/// The whole case from the card's side, through the safe type.
#[test]
fn whole_case() {
    let mut slots = vec![0xa5; SLOTS * 38];
    assert_eq!(Proved::open(0, 1, 38, &slots), Err(Refusal::ID_ZERO));
    assert_eq!(
        Proved::open(2, 1, 39, &slots),
        Err(Refusal::BAD_LIMIT_OR_SLOTS)
    );
    let mut card = Proved::open(2, 1, 38, &slots).expect("the slots fit");
    assert_eq!(card.choose(&slots, &[]), Err(Refusal::NOT_HELD));
    assert_eq!(card.seal(&slots), Err(Refusal::NOTHING_TO_SEAL));
    let data = [0x0a, 0x0b, 0x0c, 0x0d];
    assert_eq!(
        card.add(&mut slots, 0, 0, &data),
        Err(Refusal::NO_MESSAGE_LEFT)
    );
    assert_eq!(card.open_transaction(1, 64, 0x1122_3344), Ok(0));
    assert_eq!(
        card.add(&mut slots, 0, 0, &[0; 5]),
        Err(Refusal::FRAME_FULL)
    );
    assert_eq!(card.add(&mut slots, 0, 0, &data), Ok(()));
    assert_eq!(card.seal(&slots), Ok(0));
    assert_eq!(card.show(&slots, 0), Ok(&WHOLE_CASE[..]));
    assert_eq!(card.choose(&slots, &[]), Ok(Chosen::Frame(&WHOLE_CASE)));
    let lent = [7; 10];
    let chosen = card
        .choose(&slots, &lent)
        .expect("an acknowledgement can always go out");
    assert_eq!(chosen, Chosen::Acknowledgement(&lent));
    assert_eq!(chosen.bytes().as_ptr(), lent.as_ptr());
    assert_eq!(slots[38..], [0xa5; 63 * 38]);
    assert_eq!(card.read(&WHOLE_CASE_ACKNOWLEDGEMENT), Ok(()));
    assert_eq!(card.show(&slots, 0), Err(Refusal::NOT_HELD));
    let kept = Proved::from_words(*card.words());
    assert_eq!(kept, card);
    assert_eq!(card.reopen(1, 0, 38, &slots), Err(Refusal::ID_ZERO));
    assert_eq!(card.words(), Proved::new().words());
}

/// The first of the runs above tell every faulty card apart.
#[test]
fn the_calls_tell_every_faulty_card_apart() {
    const RUNS: u64 = 80;
    let seed = seed();
    let mut seen = vec![0u64; Fault::ALL.len()];
    for run in 0..RUNS {
        let (mut aim, limit, slots) = begin(seed, run);
        if limit == 9_000 {
            continue;
        }
        let mut both = Both::open(1, 2, limit, &slots);
        let mut sound = Faulty::new(None, 1, 2, limit, &slots);
        let mut suspects: Vec<Option<Faulty>> = Fault::ALL
            .iter()
            .map(|fault| Some(Faulty::new(Some(*fault), 1, 2, limit, &slots)))
            .collect();
        for index in 0..RUN {
            let call = aim.call(both.words());
            let name = || format!("seed {seed}, run {run}, call {index}: {call:?}");
            let outcome = both.call(&call, &name);
            assert_eq!(sound.call(&call), outcome, "no fault: {}", name());
            assert!(sound.slots() == both.slots(), "no fault: {}", name());
            for (suspect, seen) in suspects.iter_mut().zip(&mut seen) {
                let Some(faulty) = suspect else { continue };
                let same = faulty.call(&call) == outcome;
                let slots = !matches!(
                    call,
                    Call::Add { .. } | Call::Seal { .. } | Call::Open { .. }
                ) || faulty.slots() == both.slots();
                if !(same && slots) {
                    *seen += 1;
                    *suspect = None;
                }
            }
        }
    }
    for (fault, seen) in Fault::ALL.iter().zip(&seen) {
        println!("{fault:?}: told apart in {seen} of {RUNS} runs");
    }
    let missed: Vec<_> = Fault::ALL
        .iter()
        .zip(&seen)
        .filter(|(_, seen)| **seen == 0)
        .collect();
    assert!(missed.is_empty(), "seed {seed}: not told apart: {missed:?}");
}
