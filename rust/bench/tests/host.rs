//! Compares the plain fast host with the reference, answer by answer and byte by byte,
//! on generated traffic from a fresh start and from near the ends of the numbers.

use bench::plain::host::{self as plain, Answer};
use bench::shapes::{MEMORY, SHAPES};
use reference::host::{self, Host};
use reference::replay;
use reference::traffic::{Kind, Traffic};

const LINES: usize = 300_000;

/// The reference's answer in the plain host's form.
fn converted(answer: host::Answer) -> Answer {
    match answer {
        host::Answer::Accepted {
            number,
            messages,
            bytes,
            completed,
            run,
        } => Answer::Accepted {
            number,
            messages: messages as u32,
            bytes: bytes as u32,
            completed: completed as u32,
            run,
        },
        host::Answer::Again { number, run } => Answer::Again { number, run },
        host::Answer::NoMessages => Answer::NoMessages,
        host::Answer::Refused { number, place } => Answer::Refused {
            number,
            place: place as u32,
        },
    }
}

fn compare(mut traffic: Traffic, next: u16, lowest: u32, lines: usize) {
    let mut reference = Host::starting_at(1, 2, next, lowest);
    let mut plain = plain::Host::starting_at(1, 2, next, lowest);
    let mut expected = vec![0; replay::MEMORY];
    let mut memory = expected.clone();
    let mut met = [0; 13];
    for index in 0..lines {
        let line = traffic.next_line();
        let Some(frame) = replay::bytes_of(line.text) else {
            continue;
        };
        let answer = reference.receive(&frame, &mut expected);
        let got = plain.receive(&frame, &mut memory);
        assert_eq!(got, converted(answer), "line {index}, '{}'", line.family);
        assert!(memory == expected, "line {index}, '{}'", line.family);
        let number = index as u16;
        assert_eq!(
            plain.acknowledgement(got, number),
            reference.acknowledgement(answer, number)
        );
        match got {
            Answer::Refused { number, .. } => met[usize::from(number)] += 1,
            _ => met[0] += 1,
        }
    }
    assert!(met.iter().all(|met| *met >= lines / 5_000), "{met:?}");
}

#[test]
fn agrees_on_a_cards_traffic() {
    compare(Traffic::new(31, Kind::Network), 0, 0, LINES);
}

#[test]
fn agrees_on_guided_traffic() {
    compare(Traffic::new(32, Kind::Guided), 0, 0, LINES);
}

#[test]
fn agrees_past_the_ends_of_the_numbers() {
    for (seed, next, lowest) in [
        (33, 65_500, u32::MAX - 100),
        (34, 0, u32::MAX),
        (35, 32_760, u32::MAX - 31),
        (36, 65_535, u32::MAX - 5_000),
    ] {
        let traffic = Traffic::starting_at(seed, next, lowest);
        compare(traffic, next, lowest, LINES / 10);
    }
}

#[test]
fn opening_agrees() {
    for (own, peer) in [(0, 2), (1, 0), (0, 0), (1, 2), (5, 5), (65_535, 1)] {
        let (mut expected, refusal) = Host::open(own, peer);
        let (mut host, got) = plain::Host::open(own, peer);
        assert_eq!(got, refusal);
        for ids in [[1, 0, 2, 0], [0, 0, 0, 0], [5, 0, 5, 0], [255, 255, 1, 0]] {
            let mut frame = [0; 34];
            frame[..4].copy_from_slice(&ids);
            frame[9] = 1;
            let mut memory = [[1; 8]; 2];
            assert_eq!(
                host.receive(&frame, &mut memory[0]),
                converted(expected.receive(&frame, &mut memory[1]))
            );
            assert_eq!(memory[0], memory[1]);
        }
    }
}

/// Every benchmark frame is answered alike, and all new ones are accepted.
#[test]
fn benchmark_frames_are_accepted() {
    const ARRIVALS: usize = 70_016;
    for shape in SHAPES {
        let frames = shape.frames(ARRIVALS, MEMORY);
        let mut reference = Host::open(1, 2).0;
        let mut plain = plain::Host::open(1, 2).0;
        let mut memories = [vec![0; MEMORY], vec![0; MEMORY]];
        let mut total = 0;
        for (index, frame) in frames.chunks(shape.size()).enumerate() {
            let answer = plain.receive(frame, &mut memories[0]);
            if let Answer::Accepted { bytes, .. } = answer {
                total += u64::from(bytes);
            }
            // The reference copies its memory for every frame.
            if index < 2_000 {
                let expected = reference.receive(frame, &mut memories[1]);
                assert_eq!(answer, converted(expected), "{}", shape.name);
            }
            if index == 1_999 {
                assert!(memories[0] == memories[1], "{}", shape.name);
            }
        }
        assert_eq!(total, shape.accepted_bytes(ARRIVALS), "{}", shape.name);
    }
}
