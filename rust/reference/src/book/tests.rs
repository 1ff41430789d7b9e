//! The plain book by hand-worked cases, with no card and no host beside it.

use super::*;

fn open(count: u16, address: u32) -> Call {
    Call::Open {
        count,
        address,
        value: 0x0403_0201,
    }
}

fn add(transaction: u32, address: u32, data: &[u8]) -> Call {
    Call::Add {
        transaction,
        address,
        data: data.to_vec(),
    }
}

fn enter_all(book: &mut Book, calls: &[Call]) {
    for call in calls {
        book.enter(call, false, &[]);
    }
}

#[test]
fn latest_is_the_highest_count_with_a_number() {
    for total in 0..40 {
        for first in [0, 1, 6, 7] {
            for number in 0..8u32 {
                let expected =
                    (0..total).rfind(|count| (first + *count as u64) % 8 == number.into());
                assert_eq!(
                    latest(total, first, 8, number),
                    expected,
                    "{total} {first} {number}"
                );
            }
        }
    }
    assert_eq!(latest(70_000, 0, 65_536, 3), Some(65_539));
    assert_eq!(latest(3, u32::MAX.into(), 1 << 32, 1), Some(2));
}

#[test]
fn a_refused_call_does_nothing() {
    let mut book = Book::new(&[0; 8], Start::default());
    let fresh = book.clone();
    for call in [open(1, 0), add(0, 0, &[1]), Call::Seal, Call::Read(0)] {
        assert_eq!(book.enter(&call, true, &[]), Expected::NoEffect);
        assert_eq!(book, fresh, "{call:?}");
    }
}

#[test]
fn data_comes_with_its_frame_and_the_completion_with_the_last() {
    let mut book = Book::new(&[9; 8], Start::default());
    let calls = [
        open(2, 4),
        add(0, 0, &[1, 2]),
        Call::Seal,
        add(0, 3, &[3]),
        Call::Seal,
        Call::Show(0),
        Call::Show(1),
    ];
    enter_all(&mut book, &calls);
    assert_eq!(book.memory(), [9; 8]);
    let first = Expected::Accepted {
        frame: 1,
        messages: 1,
        bytes: 1,
        completed: vec![],
        run: 1,
    };
    assert_eq!(book.enter(&Call::Receive(1), false, &[]), first);
    assert_eq!(book.memory(), [9, 9, 9, 3, 9, 9, 9, 9]);
    assert_eq!(book.lowest_not_accepted(), 0);
    let last = Expected::Accepted {
        frame: 0,
        messages: 1,
        bytes: 2,
        completed: vec![0],
        run: 2,
    };
    assert_eq!(book.enter(&Call::Receive(0), false, &[]), last);
    assert_eq!(book.memory(), [1, 2, 9, 3, 1, 2, 3, 4]);
    assert_eq!(book.memory(), book.memory_whole());
    assert_eq!(book.lowest_not_accepted(), 2);
    assert_eq!(
        book.enter(&Call::Receive(1), false, &[]),
        Expected::Again { frame: 1, run: 1 }
    );
    let totals = Totals {
        messages: 2,
        bytes: 3,
        completed: 1,
    };
    assert_eq!(book.totals(), totals);
    assert!(!book.is_settled(), "nothing is released");
}

#[test]
fn memory_is_written_in_order_of_opening() {
    let mut book = Book::new(&[0; 12], Start::default());
    let calls = [
        open(1, 4),
        open(1, 8),
        add(1, 0, &[2]),
        Call::Seal,
        add(0, 0, &[1]),
        Call::Seal,
        Call::Show(0),
        Call::Show(1),
        Call::Receive(1),
        Call::Receive(0),
    ];
    enter_all(&mut book, &calls);
    assert_eq!(
        book.memory()[0],
        2,
        "the later one, though added and accepted before"
    );
}

#[test]
fn copies_of_nothing_do_nothing() {
    let mut book = Book::new(&[0; 8], Start::default());
    enter_all(&mut book, &[open(0, 0), add(0, 0, &[]), Call::Seal]);
    let lent = vec![1; 10];
    book.enter(&Call::Show(7), true, &[]);
    book.enter(&Call::Choose(vec![]), true, &[]);
    book.enter(&Call::Choose(lent.clone()), false, &lent);
    let expected = [HandOut::Nothing, HandOut::Nothing, HandOut::Lent];
    assert_eq!(book.hand_outs(), expected);
    let before = book.clone();
    for copy in 0..5 {
        assert_eq!(
            book.enter(&Call::Receive(copy), false, &[]),
            Expected::NoEffect
        );
        book.enter(&Call::Read(copy), false, &[]);
    }
    assert_eq!(book, before);
}

#[test]
fn frames_are_released_in_order_and_then_transactions_finish() {
    let mut book = Book::new(&[0; 8], Start::default());
    let calls = [
        open(2, 0),
        open(1, 4),
        add(0, 0, &[]),
        Call::Seal,
        add(1, 0, &[]),
        add(0, 0, &[]),
        Call::Seal,
        Call::Show(0),
        Call::Show(1),
        Call::Receive(1),
        Call::Receive(0),
        Call::Read(0),
    ];
    enter_all(&mut book, &calls);
    assert_eq!(
        book.lowest_not_released(),
        0,
        "the lower frame is not acknowledged"
    );
    assert!(!book.transactions()[1].is_finished());
    book.enter(&open(0, 0), false, &[]);
    assert_eq!(book.transactions()[2].unfinished_at_opening, [0, 1]);
    book.enter(&Call::Read(1), false, &[]);
    assert_eq!(book.lowest_not_released(), 2);
    assert_eq!(book.lowest_unfinished(), 2);
    assert!(!book.is_settled(), "the bare one is open");
    book.enter(&open(0, 0), false, &[]);
    assert_eq!(book.transactions()[3].unfinished_at_opening, [2]);
}

/// Frames of one message each of a transaction that never ends, all shown.
fn shown(frames: u16) -> Book {
    let mut book = Book::new(&[0; 8], Start::default());
    book.enter(&open(u16::MAX, 0), false, &[]);
    for number in 0..frames {
        enter_all(&mut book, &[add(0, 0, &[]), Call::Seal, Call::Show(number)]);
    }
    book
}

#[test]
fn a_run_acknowledges_each_of_its_frames() {
    let mut book = shown(5);
    for (frame, run) in [(2, 1), (1, 2), (4, 1), (0, 3), (1, 2), (3, 2), (0, 5)] {
        let expected = book.enter(&Call::Receive(frame), false, &[]);
        let (Expected::Accepted { run: got, .. } | Expected::Again { run: got, .. }) = expected
        else {
            panic!("{expected:?}");
        };
        assert_eq!(got, run, "{frame}");
        let last = book.acknowledgements().last();
        assert_eq!(last, Some(&Acknowledgement { first: frame, run }));
    }
    // Frames 1 and 2, then 3 and 4; what came after an answer is not in its run.
    for (copy, released) in [(1, 0), (5, 0), (3, 5)] {
        book.enter(&Call::Read(copy), false, &[]);
        assert_eq!(book.lowest_not_released(), released);
    }
    let mut book = shown(2);
    enter_all(
        &mut book,
        &[Call::Receive(0), Call::Receive(1), Call::Read(0)],
    );
    assert_eq!(book.lowest_not_released(), 1);
}

#[test]
fn a_run_has_255_frames_at_most() {
    let mut book = shown(300);
    for frame in (0..300).rev() {
        book.enter(&Call::Receive(frame), false, &[]);
    }
    let runs: Vec<u8> = book.acknowledgements().iter().map(|of| of.run).collect();
    assert_eq!(runs[..3], [1, 2, 3]);
    assert_eq!(runs[253..257], [254, 255, 255, 255]);
    assert_eq!(runs[299], 255);
    book.enter(&Call::Read(299), false, &[]);
    assert_eq!(book.lowest_not_released(), 255);
}

#[test]
fn a_chosen_frame_is_known_by_its_number() {
    let start = Start {
        frame: u16::MAX,
        transaction: u32::MAX,
    };
    let mut book = Book::new(&[0; 8], start);
    let calls = [
        open(0, 0),
        open(0, 4),
        add(u32::MAX, 0, &[]),
        Call::Seal,
        add(0, 0, &[]),
        Call::Seal,
    ];
    enter_all(&mut book, &calls);
    assert_eq!(book.frames()[1].messages[0].transaction, 1);
    let chosen = [2, 0, 1, 0, 0, 0, 0, 0, 0, 1, 0];
    book.enter(&Call::Choose(vec![]), false, &chosen);
    book.enter(&Call::Show(u16::MAX), false, &chosen);
    assert_eq!(book.hand_outs(), [HandOut::Frame(1), HandOut::Frame(0)]);
}
