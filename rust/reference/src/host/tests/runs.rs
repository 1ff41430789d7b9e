//! Runs that were worked out by hand (H23), and over any next number and any marks, also
//! such as no run of a host reaches, against what the marks' word says at once.

use super::*;
use crate::rng::Rng;

/// A host with this next number and these marks, and nothing open.
fn marked(next: u16, marks: u64) -> Fixture {
    let mut words = [0; HOST_WORDS];
    words[0] = 1 | 2 << 16 | u64::from(next) << 32;
    words[1] = marks;
    Fixture {
        host: Host::from_words(&words),
        memory: vec![0; 8],
    }
}

/// Sends a frame of one message that is good for ever, and gives the run of its answer,
/// or nothing if it is refused. The acknowledgement has to say the same.
fn run_of(fixture: &mut Fixture, number: u16) -> Option<u8> {
    let answer = fixture.send(number, &[part(0, u16::MAX, &[])]);
    let acknowledgement = fixture.host.acknowledgement(answer, 0);
    let (told, run) = match answer {
        Answer::Accepted { number, run, .. } | Answer::Again { number, run } => (number, run),
        Answer::NoMessages | Answer::Refused { .. } => {
            assert_eq!(acknowledgement, None);
            return None;
        }
    };
    assert_eq!(told, number);
    let expected = wire::ack_frame(2, 1, 0, number, run);
    assert_eq!(acknowledgement, Some(expected));
    Some(run)
}

#[test]
fn a_fresh_host_has_what_is_behind() {
    for (number, run) in [
        (65_535, Some(1)),
        (65_500, Some(36)),
        (65_281, Some(255)),
        (65_280, Some(255)),
        (32_768, Some(255)),
        (32_767, None),
        (64, None),
    ] {
        assert_eq!(run_of(&mut Fixture::at(0, 0), number), run, "{number}");
    }
    assert_eq!(Fixture::at(0, 0).host.run(65_282), 254);
    // The first frame joins those before it.
    let mut fixture = Fixture::at(0, 0);
    assert_eq!(run_of(&mut fixture, 0), Some(1));
    assert_eq!(run_of(&mut fixture, 65_500), Some(37));
}

#[test]
fn a_repeat_far_behind_has_255() {
    let mut fixture = Fixture::fresh();
    for number in 0..300 {
        assert_eq!(run_of(&mut fixture, number), Some(1));
    }
    for (number, run) in [(0, 255), (44, 255), (45, 255), (46, 254), (299, 1)] {
        assert_eq!(run_of(&mut fixture, number), Some(run), "{number}");
    }
}

/// Judged after the frame took effect: the run goes on past the hole that it fills, and
/// a repeat from before the hole goes all the way.
#[test]
fn a_filled_hole_joins_both_sides() {
    let mut fixture = Fixture::fresh();
    for (number, run) in [
        (0, 1),
        (2, 1),
        (3, 1),
        (5, 1),
        (2, 2),
        (0, 1),
        (1, 3),
        (0, 4),
        (4, 2),
        (0, 6),
        (3, 3),
    ] {
        assert_eq!(run_of(&mut fixture, number), Some(run), "{number}");
    }
}

#[test]
fn a_frame_ahead_of_a_hole_is_alone() {
    let mut fixture = Fixture::fresh();
    assert_eq!(run_of(&mut fixture, 63), Some(1));
    assert_eq!(run_of(&mut fixture, 40), Some(1));
    // Before others that are accepted it has these too, and the hole's frame still not.
    assert_eq!(run_of(&mut fixture, 39), Some(2));
    assert_eq!(run_of(&mut fixture, 62), Some(2));
    assert_eq!(fixture.host.next(), 0);
}

#[test]
fn a_run_goes_past_the_end_of_the_numbers() {
    let mut fixture = Fixture::at(65_530, 0);
    for number in [65_535, 0, 1, 65_534, 65_533, 65_532, 65_531] {
        fixture.send(number, &[part(0, u16::MAX, &[])]);
    }
    assert_eq!(run_of(&mut fixture, 65_531), Some(7));
    assert_eq!(run_of(&mut fixture, 65_530), Some(8));
    assert_eq!(fixture.host.next(), 2);
    assert_eq!(run_of(&mut fixture, 65_529), Some(9));
}

/// No run of a host gets there, and the rule holds all the same.
#[test]
fn all_64_marks() {
    for next in [0, 9, 65_500, 65_535] {
        for (step, run) in [
            (0, Some(64)),
            (1, Some(63)),
            (63, Some(1)),
            (64, None),
            (-1, Some(65)),
            (-190, Some(254)),
            (-191, Some(255)),
            (-192, Some(255)),
            (-300, Some(255)),
        ] {
            let number = (i32::from(next) + step) as u16;
            let got = run_of(&mut marked(next, u64::MAX), number);
            assert_eq!(got, run, "next {next}, step {step}");
        }
    }
    // The next number's mark alone, and all but one in the middle.
    assert_eq!(run_of(&mut marked(7, 1), 6), Some(2));
    assert_eq!(run_of(&mut marked(7, !(1 << 20)), 0), Some(27));
    assert_eq!(run_of(&mut marked(7, !(1 << 20)), 27), Some(44));
}

/// What a word of marks says of a run: the ones from the number's mark on, and for a
/// number behind as many as it is behind and then the ones from the first mark on.
fn by_word(next: u16, marks: u64, number: u16) -> u32 {
    match u32::from(number.wrapping_sub(next)) {
        distance @ 0..64 => (marks >> distance).trailing_ones(),
        64..32_768 => 0,
        distance => (65_536 - distance + marks.trailing_ones()).min(255),
    }
}

fn any_next_and_marks(rng: &mut Rng) -> (u16, u64) {
    let any = rng.next_u16();
    let next = rng.pick(&[0, 1, 65_535, 65_400, any]);
    let (ones, few) = (rng.below(64), rng.next_u64());
    let many = few | rng.next_u64() | rng.next_u64();
    let edges = [u64::MAX >> ones, u64::MAX << ones];
    (
        next,
        rng.pick(&[0, u64::MAX, edges[0], edges[1], few, many]),
    )
}

#[test]
fn any_next_number_and_any_marks() {
    let mut rng = Rng::new(23);
    let mut met = [0; 256];
    let mut accepted = 0;
    for _ in 0..60_000 {
        let (next, marks) = any_next_and_marks(&mut rng);
        let step = match rng.below(4) {
            0 => rng.pick(&[63, 64, 65, 32_767, 32_768, 65_281, 65_280, 65_279, 65_535]),
            1 => rng.between(65_536 - 300, 65_535) as u16,
            2 => rng.next_u16(),
            _ => rng.below(64) as u16,
        };
        let number = next.wrapping_add(step);
        let mut fixture = marked(next, marks);
        assert_eq!(
            u32::from(fixture.host.run(number)),
            by_word(next, marks, number)
        );
        let is_new = step < 64 && marks >> step & 1 == 0;
        let got = run_of(&mut fixture, number);
        // An accepted frame's run is that of the word with its mark, before next moves.
        let with_mark = if is_new { marks | 1 << step } else { marks };
        match by_word(next, with_mark, number) {
            0 => assert_eq!(got, None),
            run => assert_eq!(got.map(u32::from), Some(run)),
        }
        let Some(run) = got else { continue };
        let settled = |number| fixture.host.is_behind_or_accepted(number);
        assert!((0..run.into()).all(|step| settled(number.wrapping_add(step))));
        assert!(run == 255 || !settled(number.wrapping_add(run.into())));
        met[usize::from(run)] += 1;
        accepted += u32::from(is_new);
    }
    assert!(met[1..=255].iter().all(|times| *times > 0), "{met:?}");
    assert!(met[255] > 1_000 && accepted > 5_000, "{accepted}: {met:?}");
}
