//! Feeds texts to the proved replay in fragments, cut in every way or at random, and
//! compares all that it answers with what the independent replay writes for the whole
//! text. `LW_SEED` chooses the seed of random cuts.

use logwhisker::{Answer, Refusal, Replay};
use reference::cases::WHOLE_CASE;
use reference::replay::{self, MOST_LINES};
use reference::rng::Rng;
use reference::settings::number_from_env;
use reference::traffic::{Kind, Traffic};
use std::fmt::Write;

const DEFAULT_SEED: u64 = 1;

/// The whole case's frame in hexadecimal.
fn whole_case() -> String {
    WHOLE_CASE
        .iter()
        .map(|byte| format!("{byte:02x}"))
        .collect()
}

/// The replay's line for an answer.
fn line(answer: Answer) -> String {
    match answer {
        Answer::Accepted {
            number,
            messages,
            bytes,
            completed,
            ..
        } => format!("A {number} {messages} {bytes} {completed}\n"),
        Answer::Again { number, .. } => format!("G {number}\n"),
        Answer::NoMessages => "N\n".to_string(),
        Answer::Refused { refusal, .. } => format!("R {}\n", refusal.number()),
    }
}

/// Feeds a fragment until it is taken whole.
fn feed(replay: &mut Replay, mut fragment: &[u8], output: &mut String) {
    loop {
        let (taken, answer) = replay.feed(fragment).expect("the replay is open");
        output.extend(answer.map(line));
        let newline = fragment.iter().position(|c| *c == b'\n');
        if answer.is_some() {
            assert_eq!(Some(taken), newline.map(|at| at + 1), "bytes of the line");
        } else {
            assert_eq!(taken, fragment.len(), "all is taken");
        }
        fragment = &fragment[taken..];
        if fragment.is_empty() {
            return;
        }
    }
}

/// Closes the replay; after that every call is refused with 17 and changes nothing.
fn close(replay: &mut Replay, output: &mut String) {
    let (last, totals) = replay.close().expect("the replay is open");
    output.extend(last.map(line));
    let (messages, bytes, completed) = (totals.messages, totals.bytes, totals.completed);
    writeln!(output, "T {messages} {bytes} {completed}").expect("memory takes any text");
    let closed = replay.clone();
    assert_eq!(replay.feed(b""), Err(Refusal::REPLAY_CLOSED));
    assert_eq!(replay.feed(b"00\n"), Err(Refusal::REPLAY_CLOSED));
    assert_eq!(replay.close(), Err(Refusal::REPLAY_CLOSED));
    assert!(*replay == closed, "a refused call changes nothing");
}

/// What the replay answers to these fragments.
fn output_of<'a>(fragments: impl IntoIterator<Item = &'a [u8]>) -> String {
    let mut replay = Replay::open();
    let mut output = String::new();
    for fragment in fragments {
        feed(&mut replay, fragment, &mut output);
    }
    close(&mut replay, &mut output);
    output
}

/// The text cut where the bits of a number say, with an empty fragment at each cut.
fn cut_by_bits(text: &[u8], cuts: u32) -> Vec<&[u8]> {
    let mut fragments = Vec::new();
    let mut from = 0;
    for at in 1..text.len() {
        if cuts >> (at - 1) & 1 == 1 {
            fragments.push(&text[from..at]);
            fragments.push(&text[at..at]);
            from = at;
        }
    }
    fragments.push(&text[from..]);
    fragments
}

#[test]
fn every_cut_of_every_short_text() {
    const LETTERS: &[u8] = b"0Fz\n";
    for length in 0..=6 {
        for number in 0..LETTERS.len().pow(length) {
            let mut rest = number;
            let text: Vec<u8> = (0..length)
                .map(|_| {
                    let letter = LETTERS[rest % LETTERS.len()];
                    rest /= LETTERS.len();
                    letter
                })
                .collect();
            let expected = replay::output(&text);
            for cuts in 0..1u32 << length.saturating_sub(1) {
                let got = output_of(cut_by_bits(&text, cuts));
                assert_eq!(got, expected, "{} by {cuts:b}", text.escape_ascii());
            }
        }
    }
}

#[test]
fn whole_case_cut_at_any_two_places() {
    for ending in ["", "\n"] {
        let frame = whole_case();
        let text = format!("{frame}\n{frame}{ending}").into_bytes();
        let expected = replay::output(&text);
        assert_eq!(expected, "A 0 1 4 1\nG 0\nT 1 4 1\n");
        for second in 0..=text.len() {
            for first in (0..=second).step_by(3) {
                let got = output_of([&text[..first], &text[first..second], &text[second..]]);
                assert_eq!(got, expected, "cut at {first} and {second}");
            }
        }
    }
}

/// Lines around the longest frame, whole and odd, with a bad character early, late and
/// past what is held, cut around each end of what is held.
#[test]
fn long_lines_cut_anywhere() {
    for digits in [
        17_998, 17_999, 18_000, 18_001, 18_002, 18_003, 30_000, 30_001,
    ] {
        for bad in [None, Some(0), Some(17_999), Some(18_001), Some(digits - 1)] {
            let mut text = vec![b'0'; digits];
            if let Some(at) = bad.filter(|at| *at < digits) {
                text[at] = b'g';
            }
            text.extend_from_slice(b"\n00");
            let expected = replay::output(&text);
            for cut in [
                1,
                2,
                17_997,
                17_999,
                18_000,
                18_001,
                18_002,
                digits - 1,
                digits,
                digits + 1,
            ] {
                let cut = cut.min(text.len());
                let got = output_of([&text[..cut], &text[cut..]]);
                assert_eq!(got, expected, "{digits} digits, bad {bad:?}, cut at {cut}");
            }
        }
    }
}

#[test]
fn random_cuts_of_long_texts() {
    let seed = number_from_env("LW_SEED", DEFAULT_SEED);
    for (index, kind) in [Kind::Network, Kind::Guided].into_iter().enumerate() {
        let text = Traffic::new(seed, kind).text(20_000);
        let expected = replay::output(&text);
        for longest in [3, 100, 5_000] {
            let mut rng = Rng::new(seed + index as u64);
            let mut fragments = Vec::new();
            let mut rest = text.as_slice();
            while !rest.is_empty() {
                let size = rng.below(longest + 1).min(rest.len());
                let (fragment, behind) = rest.split_at(size);
                fragments.push(fragment);
                rest = behind;
            }
            assert!(
                output_of(fragments) == expected,
                "seed {seed}, up to {longest} bytes"
            );
        }
    }
}

/// After the last line that is answered all is taken, and closing answers totals only.
#[test]
fn no_line_after_a_million() {
    let mut replay = Replay::open();
    let piece = vec![b'\n'; 1_000];
    let mut output = String::new();
    for _ in 0..MOST_LINES / 1_000 {
        feed(&mut replay, &piece, &mut output);
    }
    assert_eq!(output.lines().count() as u64, MOST_LINES);
    for fragment in [&b""[..], b"00", b"\n", b"00\n00\n", whole_case().as_bytes()] {
        assert_eq!(replay.feed(fragment), Ok((fragment.len(), None)));
    }
    let mut last = String::new();
    close(&mut replay, &mut last);
    assert_eq!(last, "T 0 0 0\n");
}
