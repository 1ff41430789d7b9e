//! The host against answers and bytes that were worked out by hand: both sides of
//! every edge, every refusal with its place, every order of two refusals, and
//! windows that move, also inside a frame and past the ends of their numbers.

use super::*;
use crate::cases::{WHOLE_CASE, WHOLE_CASE_ACKNOWLEDGEMENT};
use crate::wire::write_frame;

mod runs;

const MEMORY: usize = 4_096;

/// A bare completion of value 0 at address 0.
fn bare(transaction: u32) -> Message<'static> {
    part(transaction, 0, &[])
}

/// A message at address 8 of a transaction that completes at address 0.
fn part(transaction: u32, count: u16, data: &[u8]) -> Message<'_> {
    Message {
        transaction,
        completion_address: 0,
        completion_value: 0,
        count,
        data_address: 8,
        data,
    }
}

/// A host at 1 whose peer is 2, with its memory.
struct Fixture {
    host: Host,
    memory: Vec<u8>,
}

impl Fixture {
    fn fresh() -> Fixture {
        Fixture::at(0, 0)
    }

    fn at(next: u16, lowest: u32) -> Fixture {
        Fixture {
            host: Host::starting_at(1, 2, next, lowest),
            memory: vec![0; MEMORY],
        }
    }

    fn with_memory(length: usize) -> Fixture {
        Fixture {
            memory: vec![0; length],
            ..Fixture::fresh()
        }
    }

    /// Receives bytes; a refusal, an again and a no-messages must change nothing.
    fn raw(&mut self, frame: &[u8]) -> Answer {
        let before = (self.host.clone(), self.memory.clone());
        let answer = self.host.receive(frame, &mut self.memory);
        if !matches!(answer, Answer::Accepted { .. }) {
            assert!(before == (self.host.clone(), self.memory.clone()));
        }
        answer
    }

    fn send(&mut self, number: u16, messages: &[Message]) -> Answer {
        self.raw(&write_frame(1, 2, number, messages))
    }

    /// As above, as the replay would print it, with a refusal's place behind it.
    fn told(&mut self, number: u16, messages: &[Message]) -> String {
        match self.send(number, messages) {
            Answer::Refused { number, place } => format!("R {number} {place}"),
            answer => answer.to_string(),
        }
    }
}

fn refused(number: u8, place: usize) -> Answer {
    Answer::Refused { number, place }
}

#[test]
fn whole_case_with_memory_and_acknowledgement() {
    let (host, refusal) = Host::open(1, 2);
    assert_eq!(refusal, None);
    let mut fixture = Fixture {
        host,
        memory: vec![0; MEMORY],
    };
    let first = fixture.raw(&WHOLE_CASE);
    assert_eq!(
        first,
        Answer::Accepted {
            number: 0,
            messages: 1,
            bytes: 4,
            completed: 1,
            run: 1
        }
    );
    let mut expected = vec![0; MEMORY];
    expected[0..4].copy_from_slice(&[0x0a, 0x0b, 0x0c, 0x0d]);
    expected[64..68].copy_from_slice(&[0x44, 0x33, 0x22, 0x11]);
    assert_eq!(fixture.memory, expected);
    assert_eq!(
        fixture.host.acknowledgement(first, 0),
        Some(WHOLE_CASE_ACKNOWLEDGEMENT)
    );
    let second = fixture.raw(&WHOLE_CASE);
    assert_eq!(second, Answer::Again { number: 0, run: 1 });
    assert_eq!(fixture.memory, expected);
    assert_eq!(
        fixture.host.acknowledgement(second, 0),
        Some(WHOLE_CASE_ACKNOWLEDGEMENT)
    );
}

#[test]
fn acknowledgements_carry_the_callers_number_and_name_the_run() {
    let host = Host::starting_at(0x0102, 0x0304, 7, 7);
    let accepted = Answer::Accepted {
        number: 0x0506,
        messages: 3,
        bytes: 4,
        completed: 2,
        run: 9,
    };
    let expected = [4, 3, 2, 1, 8, 7, 6, 5, 9, 0];
    assert_eq!(host.acknowledgement(accepted, 0x0708), Some(expected));
    let again = |run| Answer::Again {
        number: 0x0506,
        run,
    };
    assert_eq!(host.acknowledgement(again(9), 0x0708), Some(expected));
    assert_eq!(
        host.acknowledgement(again(255), 0).unwrap()[6..9],
        [6, 5, 255]
    );
    assert_eq!(host.acknowledgement(again(0), 0), None, "no frame's answer");
    assert_eq!(host.acknowledgement(Answer::NoMessages, 0), None);
    for number in 1..=14 {
        assert_eq!(host.acknowledgement(refused(number, 0), 0), None);
    }
}

#[test]
fn opening_with_an_id_of_0_gives_an_end_with_both_at_0() {
    for (own, peer) in [(0, 2), (1, 0), (0, 0)] {
        let (mut host, refusal) = Host::open(own, peer);
        assert_eq!(refusal, Some(13));
        assert_eq!(host, Host::starting_at(0, 0, 0, 0));
        // It answers all the same, frames from 0 to 0.
        let mut memory = [0; 4];
        assert_eq!(host.receive(&WHOLE_CASE, &mut memory), refused(3, 0));
        let frame = write_frame(0, 0, 0, &[part(0, 0, &[])]);
        assert_eq!(host.receive(&frame, &mut memory), refused(11, 0));
        let frame = write_frame(0, 0, 0, &[]);
        assert_eq!(host.receive(&frame, &mut memory), Answer::NoMessages);
        let again = Answer::Again { number: 9, run: 1 };
        let acknowledgement = host.acknowledgement(again, 0);
        assert_eq!(acknowledgement, Some([0, 0, 0, 0, 0, 0, 9, 0, 1, 0]));
    }
    // Equal IDs are as good as any.
    assert_eq!(Host::open(5, 5).1, None);
    let (mut host, refusal) = Host::open(65_535, 1);
    assert_eq!(refusal, None);
    let frame = write_frame(65_535, 1, 0, &[bare(0)]);
    assert_eq!(host.receive(&frame, &mut [0; 8]).to_string(), "A 0 1 0 1");
}

#[test]
fn e1_positions_from_0() {
    let host = Fixture::fresh().host;
    for (number, position) in [
        (0, Position::InWindow),
        (63, Position::InWindow),
        (64, Position::Ahead),
        (32_767, Position::Ahead),
        (32_768, Position::Behind),
        (65_535, Position::Behind),
    ] {
        assert_eq!(host.position(number), position, "{number}");
    }
    for (number, answer) in [
        (0, "A 0 1 0 1"),
        (63, "A 63 1 0 1"),
        (64, "R 6 0"),
        (32_767, "R 6 0"),
        (32_768, "G 32768"),
        (65_535, "G 65535"),
    ] {
        assert_eq!(Fixture::fresh().told(number, &[bare(0)]), answer);
    }
}

#[test]
fn e2_and_e3_positions_past_the_end_of_the_numbers() {
    assert_eq!(Fixture::at(65_530, 0).told(3, &[bare(0)]), "A 3 1 0 1");
    assert_eq!(Fixture::at(3, 0).told(65_530, &[bare(0)]), "G 65530");
}

#[test]
fn positions_are_those_of_unwrapped_numbers() {
    for next in [0u16, 1, 63, 64, 32_767, 32_768, 40_000, 65_472, 65_535] {
        let host = Fixture::at(next, 0).host;
        for distance in 0..=65_535u16 {
            let position = match distance {
                0..=63 => Position::InWindow,
                64..=32_767 => Position::Ahead,
                _ => Position::Behind,
            };
            assert_eq!(host.position(next.wrapping_add(distance)), position);
        }
    }
}

#[test]
fn e4_transactions_past_the_end_of_the_numbers() {
    let lowest = 4_294_967_290;
    assert_eq!(Fixture::at(0, lowest).told(0, &[bare(25)]), "A 0 1 0 1");
    assert_eq!(Fixture::at(0, lowest).told(0, &[bare(26)]), "R 7 0");
    for lowest in [
        0,
        1,
        31,
        32,
        1 << 31,
        u32::MAX - 31,
        u32::MAX - 30,
        u32::MAX,
    ] {
        for (step, answer) in [
            (u32::MAX, "R 7 0"),
            (0, "A 0 1 0 1"),
            (31, "A 0 1 0 1"),
            (32, "R 7 0"),
            (33, "R 7 0"),
            (1 << 31, "R 7 0"),
            (1 << 16, "R 7 0"),
        ] {
            let transaction = lowest.wrapping_add(step);
            let mut fixture = Fixture::at(0, lowest);
            assert_eq!(fixture.told(0, &[bare(transaction)]), answer);
        }
    }
}

#[test]
fn e5_and_e6_both_sides_of_memorys_end() {
    let mut message = bare(0);
    message.data_address = 0;
    for (address, answer) in [
        (64, "A 0 1 0 1"),
        (65, "R 12 0"),
        (68, "R 12 0"),
        (u32::MAX - 3, "R 12 0"),
        (u32::MAX, "R 12 0"),
    ] {
        message.completion_address = address;
        assert_eq!(Fixture::with_memory(68).told(0, &[message]), answer);
    }
    message.completion_address = 0;
    for (address, answer) in [(68, "A 0 1 0 1"), (69, "R 11 0"), (u32::MAX, "R 11 0")] {
        message.data_address = address;
        assert_eq!(Fixture::with_memory(68).told(0, &[message]), answer);
    }
    for (address, length, answer) in [
        (60, 8, "A 0 1 8 1"),
        (61, 8, "R 11 0"),
        (67, 1, "A 0 1 1 1"),
        (68, 1, "R 11 0"),
        (u32::MAX, 1, "R 11 0"),
        (u32::MAX, 2, "R 11 0"),
        (u32::MAX - 7, 8, "R 11 0"),
        (u32::MAX - 7, 9, "R 11 0"),
    ] {
        let data = [7; 16];
        let mut message = part(0, 1, &data[..length]);
        message.data_address = address;
        assert_eq!(Fixture::with_memory(68).told(0, &[message]), answer);
    }
}

#[test]
fn memories_too_small_for_a_completion() {
    for length in 0..4 {
        let mut message = bare(0);
        message.data_address = length as u32;
        assert_eq!(Fixture::with_memory(length).told(0, &[message]), "R 12 0");
        message.data_address += 1;
        assert_eq!(Fixture::with_memory(length).told(0, &[message]), "R 11 0");
    }
}

#[test]
fn e7_every_part_of_the_whole_case() {
    for length in 0..WHOLE_CASE.len() {
        let expected = if length < 10 { 1 } else { 5 };
        let answer = Fixture::fresh().raw(&WHOLE_CASE[..length]);
        assert_eq!(answer, refused(expected, 0), "first {length} bytes");
    }
}

#[test]
fn each_refusal_with_its_place() {
    let mut fixture = Fixture::fresh();
    assert_eq!(fixture.raw(&[]), refused(1, 0));
    assert_eq!(fixture.raw(&WHOLE_CASE[..9]), refused(1, 0));
    let mut frame = WHOLE_CASE.to_vec();
    frame.resize(9_001, 0);
    assert_eq!(fixture.raw(&frame), refused(2, 0));
    for byte in 0..4 {
        let mut frame = WHOLE_CASE;
        frame[byte] ^= 0x80;
        assert_eq!(fixture.raw(&frame), refused(3, 0));
    }
    for bit in 1..8 {
        let mut frame = WHOLE_CASE;
        frame[9] ^= 1 << bit;
        assert_eq!(fixture.raw(&frame), refused(4, 0));
        frame[9] ^= 1;
        assert_eq!(fixture.raw(&frame), refused(4, 0));
    }
    // The third message is cut, and the place is 0 all the same.
    let three = write_frame(1, 2, 0, &[bare(0), bare(1), bare(2)]);
    assert_eq!(fixture.raw(&three[..three.len() - 1]), refused(5, 0));
    assert_eq!(fixture.told(64, &[bare(0)]), "R 6 0");

    // Transaction 1 is open and 2 is closed from here on.
    let first = fixture.told(0, &[part(1, 3, &[1]), bare(2)]);
    assert_eq!(first, "A 0 2 1 1");
    let bad = [
        (7, bare(32)),
        (7, bare(u32::MAX)),
        (8, bare(2)),
        (8, part(2, 9, &[1])),
        (9, part(1, 4, &[])),
        (9, bare(1)),
        (
            9,
            Message {
                completion_address: 1,
                ..part(1, 3, &[])
            },
        ),
        (
            9,
            Message {
                completion_value: 1 << 31,
                ..part(1, 3, &[])
            },
        ),
        (10, part(3, 0, &[1])),
        (
            11,
            Message {
                data_address: 4_096,
                ..part(3, 1, &[1])
            },
        ),
        (
            11,
            Message {
                data_address: 4_097,
                ..bare(3)
            },
        ),
        (
            12,
            Message {
                completion_address: 4_093,
                ..bare(3)
            },
        ),
        // Not the completing message, and refused already.
        (
            12,
            Message {
                completion_address: 4_093,
                ..part(3, 2, &[])
            },
        ),
    ];
    for (number, message) in bad {
        for place in 0..4 {
            let mut messages = vec![part(5, 100, &[9; 3]); place];
            messages.push(message);
            assert_eq!(fixture.send(1, &messages), refused(number, place));
            // The rest is not looked at.
            messages.push(bare(99));
            assert_eq!(fixture.send(1, &messages), refused(number, place));
        }
    }
    assert_eq!(fixture.told(1, &[part(1, 3, &[2])]), "A 1 1 1 0");
}

#[test]
fn wire_refusals_come_in_order() {
    // Long, from a wrong ID, with a reserved flag, cut, and ahead.
    let mut worst = vec![0xff; 9_001];
    let mut fixture = Fixture::fresh();
    assert_eq!(fixture.raw(&worst[..9]), refused(1, 0));
    assert_eq!(fixture.raw(&worst), refused(2, 0));
    worst.truncate(9_000);
    assert_eq!(fixture.raw(&worst), refused(3, 0));
    worst[..4].copy_from_slice(&[1, 0, 2, 0]);
    assert_eq!(fixture.raw(&worst), refused(4, 0));
    worst[9] = 1;
    worst[4..6].copy_from_slice(&64u16.to_le_bytes());
    assert_eq!(fixture.raw(&worst), refused(5, 0), "before ahead");
    worst[4..6].copy_from_slice(&65_535u16.to_le_bytes());
    assert_eq!(fixture.raw(&worst), refused(5, 0), "before again");
    worst[9] = 0;
    assert_eq!(fixture.raw(&worst), Answer::NoMessages);
    worst[4..6].copy_from_slice(&64u16.to_le_bytes());
    assert_eq!(fixture.raw(&worst), Answer::NoMessages, "before ahead");
}

#[test]
fn the_layout_is_judged_before_any_message() {
    let mut frame = write_frame(1, 2, 0, &[bare(77), bare(0)]);
    assert_eq!(Fixture::fresh().raw(&frame), refused(7, 0));
    frame.pop();
    assert_eq!(Fixture::fresh().raw(&frame), refused(5, 0));
    frame[33] = 0;
    assert_eq!(
        Fixture::fresh().raw(&frame),
        refused(7, 0),
        "last is the first"
    );
}

#[test]
fn ahead_and_again_come_before_the_messages() {
    let bad = [bare(77)];
    let mut fixture = Fixture::fresh();
    assert_eq!(fixture.told(64, &bad), "R 6 0");
    assert_eq!(fixture.told(65_535, &bad), "G 65535");
    assert_eq!(fixture.told(5, &[bare(0)]), "A 5 1 0 1");
    assert_eq!(fixture.told(5, &bad), "G 5");
    assert_eq!(fixture.told(6, &bad), "R 7 0");
}

#[test]
fn message_refusals_come_in_order() {
    // 0 is open, 1 is closed; every message below has all the later faults too.
    let start = || {
        let mut fixture = Fixture::fresh();
        fixture.told(0, &[part(0, 2, &[]), bare(1)]);
        fixture
    };
    let worst = |transaction, count| Message {
        transaction,
        completion_address: u32::MAX,
        completion_value: 9,
        count,
        data_address: u32::MAX,
        data: &[1],
    };
    assert_eq!(start().told(1, &[worst(32, 0)]), "R 7 0");
    assert_eq!(start().told(1, &[worst(1, 0)]), "R 8 0");
    assert_eq!(start().told(1, &[worst(0, 0)]), "R 9 0");
    assert_eq!(start().told(1, &[worst(2, 0)]), "R 10 0");
    assert_eq!(start().told(1, &[worst(2, 1)]), "R 11 0");
    let mut last = worst(2, 1);
    last.data_address = 0;
    assert_eq!(start().told(1, &[last]), "R 12 0");
    // Of two bad messages the first one counts, whatever the numbers.
    assert_eq!(start().told(1, &[last, worst(32, 0)]), "R 12 0");
    assert_eq!(start().told(1, &[bare(3), last, worst(32, 0)]), "R 12 1");
}

#[test]
fn no_messages_changes_nothing_whatever_stands_there() {
    let mut fixture = Fixture::fresh();
    for length in [10, 11, 34, 38, 9_000] {
        for number in [0u16, 64, 65_535] {
            let mut frame = vec![0xff; length];
            frame[..4].copy_from_slice(&[1, 0, 2, 0]);
            frame[4..6].copy_from_slice(&number.to_le_bytes());
            frame[9] = 0;
            assert_eq!(fixture.raw(&frame), Answer::NoMessages);
        }
    }
}

#[test]
fn acknowledgements_in_a_message_frame_do_not_matter() {
    let mut frame = WHOLE_CASE;
    frame[6..9].copy_from_slice(&[0xff, 0xff, 0xff]);
    assert_eq!(Fixture::fresh().raw(&frame).to_string(), "A 0 1 4 1");
}

#[test]
fn next_moves_past_every_accepted_number() {
    let mut fixture = Fixture::fresh();
    for number in [1, 2, 4, 63] {
        let told = fixture.told(number, &[bare(u32::from(number).min(31))]);
        assert_eq!(told, format!("A {number} 1 0 1"));
        assert_eq!(fixture.host.next(), 0);
    }
    fixture.told(0, &[bare(0)]);
    assert_eq!(fixture.host.next(), 3);
    assert_eq!(fixture.told(66, &[bare(5)]), "A 66 1 0 1");
    assert_eq!(fixture.told(67, &[bare(6)]), "R 6 0");
    fixture.told(3, &[bare(3)]);
    assert_eq!(fixture.host.next(), 5);
    for number in 0..5 {
        assert_eq!(fixture.told(number, &[bare(0)]), format!("G {number}"));
    }
    assert_eq!(fixture.told(63, &[bare(0)]), "G 63");
}

#[test]
fn a_refused_number_can_still_be_accepted() {
    let mut fixture = Fixture::fresh();
    assert_eq!(fixture.told(0, &[bare(0), bare(40)]), "R 7 1");
    assert_eq!(fixture.host, Fixture::fresh().host);
    assert_eq!(fixture.told(0, &[bare(0)]), "A 0 1 0 1");
}

#[test]
fn good_messages_before_a_refused_one_leave_no_byte() {
    let mut fixture = Fixture::fresh();
    let good = part(0, 1, &[0xee; 64]);
    assert_eq!(fixture.told(0, &[good, good]), "R 7 1");
    assert!(fixture.memory.iter().all(|byte| *byte == 0));
}

#[test]
fn frame_numbers_go_round_several_times() {
    let mut fixture = Fixture::fresh();
    let mut transaction = 0u32;
    for count in 0..3 * 65_536u64 + 100 {
        let number = (count % 65_536) as u16;
        assert_eq!(fixture.host.next(), number);
        assert_eq!(
            fixture.told(number, &[bare(transaction)]),
            format!("A {number} 1 0 1")
        );
        assert_eq!(fixture.told(number, &[]), "N");
        for late in [0, 1, 63, 64, 32_767] {
            let old = number.wrapping_sub(late);
            assert_eq!(fixture.told(old, &[bare(99)]), format!("G {old}"));
        }
        // One more is late by 32,769 and reads as ahead.
        assert_eq!(
            fixture.told(number.wrapping_sub(32_768), &[bare(0)]),
            "R 6 0"
        );
        transaction = transaction.wrapping_add(1);
    }
}

#[test]
fn transactions_go_round_and_the_window_goes_with_them() {
    let start = u32::MAX - 40;
    let mut fixture = Fixture::at(65_500, start);
    for step in 0..100u32 {
        let lowest = start.wrapping_add(step);
        assert_eq!(fixture.host.lowest(), lowest);
        let number = fixture.host.next();
        // The last one of the window is opened and stays so.
        if step < 50 {
            assert_eq!(
                fixture.told(number, &[bare(lowest.wrapping_add(32))]),
                "R 7 0"
            );
            assert_eq!(
                fixture.told(number, &[part(lowest.wrapping_add(31), 2, &[5])]),
                format!("A {number} 1 1 0")
            );
        }
        let number = fixture.host.next();
        let open = fixture.host.open_transactions().get(&lowest);
        let count = open.map_or(0, |open| open.terms.count);
        assert_eq!(
            fixture.told(number, &[part(lowest, count, &[])]),
            format!("A {number} 1 0 1")
        );
        assert_eq!(
            fixture.told(number.wrapping_add(1), &[bare(lowest)]),
            "R 7 0"
        );
    }
}

#[test]
fn transactions_opened_out_of_order() {
    let mut fixture = Fixture::fresh();
    for (number, transaction) in (1..32).rev().enumerate() {
        assert_eq!(
            fixture.told(number as u16, &[bare(transaction)]),
            format!("A {number} 1 0 1")
        );
    }
    assert_eq!(fixture.host.lowest(), 0);
    assert_eq!(fixture.told(31, &[bare(31)]), "R 8 0");
    assert_eq!(fixture.told(31, &[bare(32)]), "R 7 0");
    assert_eq!(fixture.told(31, &[bare(0)]), "A 31 1 0 1");
    assert_eq!(fixture.host.lowest(), 32);
    assert!(fixture.host.closed_transactions().is_empty());
    assert_eq!(fixture.told(32, &[bare(31)]), "R 7 0");
    assert_eq!(fixture.told(32, &[bare(63)]), "A 32 1 0 1");
}

#[test]
fn windows_move_inside_a_frame() {
    // A further message of the lowest one is outside, of a higher one closed.
    assert_eq!(Fixture::fresh().told(0, &[bare(0), bare(0)]), "R 7 1");
    assert_eq!(Fixture::fresh().told(0, &[bare(1), bare(1)]), "R 8 1");
    // 32 comes into the window by what stands before it in the frame.
    assert_eq!(Fixture::fresh().told(0, &[bare(32)]), "R 7 0");
    assert_eq!(Fixture::fresh().told(0, &[bare(0), bare(32)]), "A 0 2 0 2");
    assert_eq!(
        Fixture::fresh().told(0, &[bare(1), bare(0), bare(33)]),
        "A 0 3 0 3"
    );
    assert_eq!(Fixture::fresh().told(0, &[bare(1), bare(32)]), "R 7 1");
    let run: Vec<Message> = (0..374).map(bare).collect();
    let mut fixture = Fixture::fresh();
    assert_eq!(fixture.told(0, &run), "A 0 374 0 374");
    assert_eq!(fixture.host.lowest(), 374);
}

#[test]
fn transactions_spread_over_one_frame_and_several() {
    let mut fixture = Fixture::fresh();
    let (a, b) = (part(0, 3, &[1, 2]), part(1, 2, &[3]));
    assert_eq!(fixture.told(0, &[a, b, a]), "A 0 3 5 0");
    assert_eq!(fixture.host.open_transactions()[&0].received, 2);
    assert_eq!(fixture.told(1, &[b, a, b]), "R 7 2");
    assert_eq!(fixture.told(1, &[b, b]), "R 8 1");
    assert_eq!(fixture.told(1, &[b, a]), "A 1 2 3 2");
    assert_eq!(fixture.host.lowest(), 2);
    // Opened in this frame and contradicted in it.
    assert_eq!(
        fixture.told(2, &[part(2, 3, &[]), part(2, 2, &[])]),
        "R 9 1"
    );
}

#[test]
fn messages_of_no_bytes_count_as_messages() {
    let mut fixture = Fixture::fresh();
    let empty = part(0, 3, &[]);
    assert_eq!(fixture.told(0, &[empty, empty]), "A 0 2 0 0");
    assert_eq!(fixture.told(1, &[empty]), "A 1 1 0 1");
}

#[test]
fn the_largest_count() {
    let mut fixture = Fixture::fresh();
    let message = part(0, 65_535, &[]);
    for number in 0..175 {
        let messages = [message; 374];
        assert_eq!(
            fixture.told(number, &messages),
            format!("A {number} 374 0 0")
        );
    }
    assert_eq!(65_535 - 175 * 374, 85);
    let mut messages = [message; 85].to_vec();
    messages.push(part(0, 65_535, &[]));
    assert_eq!(fixture.told(175, &messages), "R 7 85");
    messages.pop();
    assert_eq!(fixture.told(175, &messages), "A 175 85 0 1");
}

#[test]
fn a_completion_is_written_straight_after_its_data() {
    let mut fixture = Fixture::fresh();
    let own = Message {
        transaction: 0,
        completion_address: 9,
        completion_value: 0x4433_2211,
        count: 1,
        data_address: 8,
        data: &[0xaa; 6],
    };
    fixture.send(0, &[own]);
    // Over the data of its own message.
    assert_eq!(fixture.memory[8..14], [0xaa, 0x11, 0x22, 0x33, 0x44, 0xaa]);
    // And under the data of the next message of the frame.
    let next = Message {
        transaction: 2,
        data_address: 10,
        data: &[0xbb],
        completion_address: 100,
        ..own
    };
    let first = Message {
        transaction: 1,
        ..own
    };
    fixture.send(1, &[first, next]);
    assert_eq!(fixture.memory[8..14], [0xaa, 0x11, 0xbb, 0x33, 0x44, 0xaa]);
    // Not before the count is reached, in whatever order frames come.
    let mut fixture = Fixture::fresh();
    let half = Message { count: 2, ..own };
    fixture.send(1, &[half]);
    assert_eq!(fixture.memory[8..14], [0xaa; 6]);
    fixture.send(0, &[half]);
    assert_eq!(fixture.memory[9..13], [0x11, 0x22, 0x33, 0x44]);
}

#[test]
fn data_is_written_at_its_address_and_nowhere_else() {
    let mut fixture = Fixture::fresh();
    let message = Message {
        transaction: 0,
        completion_address: 4_092,
        completion_value: 0x0403_0201,
        count: 1,
        data_address: 4_089,
        data: &[7, 8, 9],
    };
    fixture.send(0, &[message]);
    let mut expected = vec![0; MEMORY];
    expected[4_089..].copy_from_slice(&[7, 8, 9, 1, 2, 3, 4]);
    assert_eq!(fixture.memory, expected);
}
