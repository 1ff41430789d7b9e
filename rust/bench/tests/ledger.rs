//! Compares the plain fast ledger with the reference's, answer by answer and account by
//! account: blocks good and bad, from an empty ledger and from one that is nearly full.

use bench::plain::ledger as plain;
use reference::ledger::{Account, Ledger, SUBSCRIBERS};
use reference::replay::bytes_of;
use reference::script::Ledgers;

/// Both ledgers, and how often each refusal was met, 0 for none.
struct Both {
    reference: Ledger,
    plain: plain::Ledger,
    met: [u64; 43],
}

impl Both {
    fn starting_with(start: &Ledger) -> Both {
        let mut plain = plain::Ledger::open();
        for subscriber in 0..SUBSCRIBERS {
            if let Some(Account { counter, total }) = start.account(subscriber) {
                plain.put(subscriber, counter, total);
            }
        }
        let both = Both {
            reference: start.clone(),
            plain,
            met: [0; 43],
        };
        both.compare();
        both
    }

    fn take(&mut self, block: &[u8]) {
        let answer = self.plain.take(block);
        assert_eq!(answer, self.reference.take(block), "{block:?}");
        self.met[usize::from(answer.err().unwrap_or(0))] += 1;
        self.compare();
    }

    fn compare(&self) {
        assert_eq!(self.plain.sum(), self.reference.sum());
        for subscriber in 0..=SUBSCRIBERS {
            let (got, due) = (
                self.plain.total(subscriber),
                self.reference.total(subscriber),
            );
            assert_eq!(got, due, "subscriber {subscriber}");
        }
    }

    /// Takes the blocks among so many lines.
    fn take_blocks_of(&mut self, script: &mut Ledgers, lines: usize) {
        for _ in 0..lines {
            let (line, answer) = script.next_line();
            match line.strip_prefix(b"block ") {
                Some(b"-") => self.take(&[]),
                Some(digits) if answer != "?" => {
                    let block = bytes_of(digits).expect("the line has a form");
                    self.take(&block);
                }
                _ if line == b"ledger" => {
                    self.reference = Ledger::open();
                    self.plain = plain::Ledger::open();
                }
                _ => {}
            }
        }
    }
}

#[test]
fn agrees_from_an_empty_ledger() {
    let mut met = [0; 43];
    for seed in 0..10 {
        let mut script = Ledgers::new(seed);
        let mut both = Both::starting_with(script.start());
        both.take_blocks_of(&mut script, 2_000);
        met.iter_mut()
            .zip(both.met)
            .for_each(|(met, each)| *met += each);
    }
    println!("{met:?}");
    assert!([0, 40, 41].iter().all(|number| met[*number] >= 100));
}

#[test]
fn agrees_near_the_end_of_the_sum() {
    let (mut met, mut full) = ([0; 43], 0);
    for seed in 0..100 {
        let mut script = Ledgers::nearly_full(seed);
        let mut both = Both::starting_with(script.start());
        both.take_blocks_of(&mut script, 200);
        met.iter_mut()
            .zip(both.met)
            .for_each(|(met, each)| *met += each);
        full += u32::from(both.plain.sum() == u64::MAX);
    }
    println!("{met:?}, {full} full");
    assert!([0, 40, 41, 42].iter().all(|number| met[*number] >= 100));
    assert!(full > 10, "{full} ledgers were filled to the last byte");
}
