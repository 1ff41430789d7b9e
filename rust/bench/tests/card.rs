//! Compares the plain fast card with the reference, call by call and byte by byte, from a
//! fresh start and from near the ends of the numbers.

use bench::ends::CardEnd;
use bench::plain::card::Card;
use bench::steps::{SLOTS, STEPS};
use reference::card;
use reference::card_calls::{Aim, Call, Outcome, expected, frame};
use reference::rng::Rng;

const RUNS: u64 = 300;
const CALLS: usize = 1_500;

/// What the plain card gives.
fn got(card: &mut Card, slots: &mut [u8], call: &Call) -> Outcome {
    let lent = call.lent(slots.len());
    let slots = &mut slots[..lent];
    let refused = |refusal: u32| Outcome::Refused(refusal as u8);
    let done = |refusal| {
        if refusal == 0 {
            Outcome::Done
        } else {
            refused(refusal)
        }
    };
    match call {
        Call::Open {
            count,
            address,
            value,
        } => {
            let mut number = 0;
            match card.open_transaction(*count, *address, *value, &mut number) {
                0 => Outcome::Number(number),
                refusal => refused(refusal),
            }
        }
        Call::Add {
            transaction,
            address,
            data,
            ..
        } => done(card.add(slots, *transaction, *address, data)),
        Call::Seal { .. } => {
            let mut number = 0;
            match card.seal(slots, &mut number) {
                0 => Outcome::Number(number.into()),
                refusal => refused(refusal),
            }
        }
        Call::Read(frame) => done(card.read(frame)),
        Call::Show { number, .. } => {
            let mut part = [1; 2];
            let refusal = card.show(slots, *number, &mut part);
            let [offset, length] = part.map(|number| number as usize);
            match refusal {
                0 => frame(offset, &slots[offset..offset + length]),
                refusal => refused(refusal),
            }
        }
        Call::Choose { lent, .. } => {
            let mut part = [1; 3];
            let refusal = card.choose(slots, lent, &mut part);
            let [from, offset, length] = part.map(|number| number as usize);
            match (refusal, from) {
                (0, 1) => Outcome::Lent(lent[offset..offset + length].to_vec()),
                (0, _) => frame(offset, &slots[offset..offset + length]),
                (refusal, _) => refused(refusal),
            }
        }
    }
}

#[test]
fn agrees_on_calls_of_every_kind() {
    let mut refused = [0; 28];
    for run in 0..RUNS {
        let mut rng = Rng::new(run);
        let limit = rng.pick(&[34, 35, 42, 66, 67, 100, 130, 300]);
        let mut slots = rng.bytes(64 * limit);
        let mut expected_slots = slots.clone();
        let (frame, transaction) = match run % 3 {
            0 => (65_536 - rng.between(1, 90), u32::MAX - rng.below(60) as u32),
            _ => (0, 0),
        };
        let mut reference = card::Card::starting_at(1, 2, limit, frame as u16, transaction);
        let plain = Card::open(1, 2, limit, &slots).expect("the slots fit the limit");
        let mut plain = plain.starting_at(frame as u16, transaction);
        let deaf = rng.chance(1, 6);
        let mut aim = Aim { rng, deaf };
        for index in 0..CALLS {
            let call = aim.call(&reference.to_words());
            let outcome = expected(&mut reference, &mut expected_slots, &call);
            assert_eq!(
                got(&mut plain, &mut slots, &call),
                outcome,
                "run {run}, call {index}: {call:?}"
            );
            assert!(slots == expected_slots, "run {run}, call {index}: {call:?}");
            if let Outcome::Refused(number) = outcome {
                refused[usize::from(number)] += 1;
            }
        }
    }
    let met = [1, 2, 3, 4, 5, 20, 21, 22, 23, 24, 25, 26, 27];
    assert!(
        met.iter().all(|number| refused[*number] > 100),
        "{refused:?}"
    );
}

#[test]
fn openings_agree() {
    for limit in [0, 33, 34, 100, 9_000, 9_001] {
        for bytes in [64 * limit, 64 * limit + 1] {
            let slots = vec![0; bytes];
            for (own, peer) in [(1, 2), (0, 2), (1, 0)] {
                let refusal = card::Card::open(own, peer, limit, &slots).1;
                let got = Card::open(own, peer, limit, &slots).err();
                assert_eq!(got, refusal.map(u32::from), "{own} {peer} {limit} {bytes}");
            }
        }
    }
}

/// A card that must not refuse anything: a refused call takes next to no time.
struct Unrefused(Card);

fn unrefused(refusal: u32) -> u32 {
    assert_eq!(refusal, 0, "refused");
    refusal
}

impl CardEnd for Unrefused {
    fn fresh(limit: usize, slots: &[u8]) -> Unrefused {
        Unrefused(CardEnd::fresh(limit, slots))
    }

    fn open_transaction(&mut self, count: u16, address: u32, value: u32, number: &mut u32) -> u32 {
        unrefused(self.0.open_transaction(count, address, value, number))
    }

    fn add(&mut self, slots: &mut [u8], transaction: u32, address: u32, data: &[u8]) -> u32 {
        unrefused(self.0.add(slots, transaction, address, data))
    }

    fn seal(&mut self, slots: &[u8], number: &mut u16) -> u32 {
        unrefused(self.0.seal(slots, number))
    }

    fn read(&mut self, frame: &[u8]) -> u32 {
        unrefused(self.0.read(frame))
    }

    fn show(&self, slots: &[u8], number: u16, part: &mut [u64; 2]) -> u32 {
        unrefused(self.0.show(slots, number, part))
    }

    fn choose(&self, slots: &[u8], lent: &[u8], part: &mut [u64; 3]) -> u32 {
        unrefused(self.0.choose(slots, lent, part))
    }
}

/// No step of the benchmark is refused, also where turns go on past the end of the frame
/// numbers.
#[test]
fn benchmark_steps_are_done() {
    let data = vec![3; 2_000];
    for (name, steps) in STEPS {
        let mut slots = vec![0; SLOTS];
        let mut card: Unrefused = steps.begin(&mut slots);
        let turns = 70_000usize.div_ceil(steps.times());
        let mut results = 0;
        for _ in 0..turns {
            steps.turn(&mut card, &mut slots, &data, &mut |_| results += 1);
        }
        assert!(results >= turns * steps.times(), "{name}");
        let mut part = [0; 2];
        // What is left to be shown, or nothing: none was lost on the way.
        let held = card.0.show(&slots, 0, &mut part) == 0;
        assert_eq!(held, name.contains("again"), "{name}");
    }
}
