//! The count of 64 marks, compared with one that goes from mark to mark, and windows that
//! move over all their marks at once. `LW_SEED` chooses the seed of the random words.

use logwhisker::{Answer, Host};
use reference::marks;
use reference::rng::Rng;
use reference::settings::number_from_env;
use reference::wire::{Message, write_frame};

fn check(word: u64) {
    let count = logwhisker::trailing_ones(word);
    assert_eq!(count as usize, marks::count(word), "{word:#018x}");
}

/// Every place of the first clear mark, with none, one or all of those above it clear.
#[test]
fn count_at_every_place() {
    check(0);
    check(u64::MAX);
    assert_eq!(logwhisker::trailing_ones(u64::MAX), 64);
    for first in 0..64 {
        let below = (1 << first) - 1;
        check(below);
        check(!(1 << first));
        for second in 0..64 {
            check(below | 1 << second);
            check(!(1 << first | 1 << second));
        }
    }
}

#[test]
fn count_of_random_words() {
    let seed = number_from_env("LW_SEED", 1);
    let mut rng = Rng::new(seed);
    for _ in 0..1_000_000 {
        let word = rng.next_u64();
        check(word);
        check(word | word << 1 | word >> 1);
        check(!0 >> rng.below(64) & (word | (1 << rng.below(64)) - 1));
    }
}

/// A frame that completes one transaction.
fn frame(number: u16, transaction: u32) -> Vec<u8> {
    let message = Message {
        transaction,
        completion_address: 0,
        completion_value: transaction,
        count: 1,
        data_address: 4,
        data: &[],
    };
    write_frame(1, 2, number, &[message])
}

/// 63 frames ahead of a hole and then the hole: one move by 64, though no word can be
/// shifted by as much. Each completes a transaction: of these the window moves by 32, twice.
#[test]
fn windows_move_by_all_their_marks() {
    let mut host = Host::open(1, 2).expect("neither ID is 0");
    let mut memory = [0; 8];
    for half in [0, 32] {
        // The hole in the frames is number 0, that in the transactions the lowest one of each half.
        for place in 1..32 {
            let answer = host.receive(&frame(half + place, u32::from(half + place)), &mut memory);
            assert!(matches!(answer, Answer::Accepted { .. }), "{answer:?}");
        }
        if half == 0 {
            let state = host.describe();
            assert_eq!((state.next, state.marks), (0, 0xffff_fffe));
            assert_eq!((state.lowest, state.closed), (0, 0xffff_fffe));
            // Frame 32 completes the lowest transaction.
            host.receive(&frame(32, 0), &mut memory);
            let state = host.describe();
            assert_eq!((state.next, state.marks), (0, 0x1_ffff_fffe));
            assert_eq!((state.lowest, state.closed), (32, 0));
        }
    }
    let state = host.describe();
    assert_eq!((state.next, state.marks), (0, !1));
    assert_eq!((state.lowest, state.closed), (32, !1));
    let answer = host.receive(&frame(0, 32), &mut memory);
    assert!(
        matches!(answer, Answer::Accepted { run: 64, .. }),
        "{answer:?}"
    );
    let state = host.describe();
    assert_eq!((state.next, state.marks), (64, 0));
    assert_eq!((state.lowest, state.closed), (64, 0));
}
