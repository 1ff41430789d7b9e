//! Compares every function of the proved static library with the independent
//! implementation. `LW_SEED` and `LW_INPUTS` choose the seed and the number of
//! frames; every failure names the seed, the input's index and the frame.

mod faulty;
mod inputs;

use faulty::Fault;
use inputs::{Input, Known, MOST_MESSAGES, Settings};
use logwhisker::{Layout, Refusal};
use reference::cases::WHOLE_CASE;
use reference::refusal::{self, Class};
use reference::wire;
use std::ops::ControlFlow;

/// What the nine calls answer for one frame.
#[derive(Clone, Copy, Debug, Default, PartialEq, Eq)]
struct Answers {
    refusal: u32,
    destination: u32,
    source: u32,
    number: u32,
    ack_start: u32,
    ack_count: u32,
    flags: u32,
    messages: u32,
    data_bytes: u32,
}

impl Answers {
    fn of_library(frame: &[u8]) -> Answers {
        Answers {
            refusal: logwhisker::layout_refusal(frame),
            destination: logwhisker::destination(frame),
            source: logwhisker::source(frame),
            number: logwhisker::frame_number(frame),
            ack_start: logwhisker::ack_start(frame),
            ack_count: logwhisker::ack_count(frame),
            flags: logwhisker::flags(frame),
            messages: logwhisker::message_count(frame),
            data_bytes: logwhisker::data_bytes(frame),
        }
    }

    /// A refused layout has 0 for everything else.
    fn of_reference(frame: &[u8]) -> Answers {
        match wire::layout(frame) {
            Err(refusal) => Answers {
                refusal: refusal.into(),
                ..Answers::default()
            },
            Ok(layout) => Answers {
                refusal: 0,
                destination: layout.header.destination.into(),
                source: layout.header.source.into(),
                number: layout.header.number.into(),
                ack_start: layout.header.ack_start.into(),
                ack_count: layout.header.ack_count.into(),
                flags: layout.header.flags.into(),
                messages: layout.messages as u32,
                data_bytes: layout.data_bytes as u32,
            },
        }
    }

    /// Whether this is the outcome that a family of inputs knows.
    fn agrees_with(&self, known: Known) -> bool {
        let (refusal, (messages, data_bytes)) = match known {
            Ok(sizes) => (0, sizes),
            Err(refusal) => (refusal, (0, 0)),
        };
        self.refusal == refusal.into()
            && self.messages == messages as u32
            && self.data_bytes == data_bytes as u32
    }
}

/// The independent reader's answers, checked with what the input's family knows.
fn expected(input: &Input) -> Answers {
    let expected = Answers::of_reference(input.frame);
    if let Some(known) = input.known {
        assert!(
            expected.agrees_with(known),
            "the reference answers {expected:?}, its input was made for {known:?}: {}",
            input.describe()
        );
    }
    expected
}

/// How often each outcome was met.
struct Tally {
    inputs: u64,
    refusals: [u64; 6],
    messages: [u64; MOST_MESSAGES + 1],
    /// Frames that were read, with data bytes, by the power of two of their number.
    data_bytes: [u64; 14],
}

impl Tally {
    fn new() -> Tally {
        Tally {
            inputs: 0,
            refusals: [0; 6],
            messages: [0; MOST_MESSAGES + 1],
            data_bytes: [0; 14],
        }
    }

    fn add(&mut self, answers: &Answers) {
        self.inputs += 1;
        self.refusals[answers.refusal as usize] += 1;
        if answers.refusal == 0 {
            self.messages[answers.messages as usize] += 1;
            if let Some(power) = answers.data_bytes.checked_ilog2() {
                self.data_bytes[power as usize] += 1;
            }
        }
    }

    /// Without these numbers an agreement could be one about next to nothing.
    fn assert_enough(&self, rounds: u64, settings: Settings) {
        let wanted = [3_000, 200, 40, 1_000, 3_000];
        for (refusal, wanted) in [0, 1, 2, 4, 5].into_iter().zip(wanted) {
            self.assert_at_least(
                &format!("refusal {refusal}"),
                self.refusals[refusal],
                rounds * wanted,
                settings,
            );
        }
        for (messages, &met) in self.messages.iter().enumerate() {
            let wanted = if messages <= 6 { 150 } else { 1 };
            let what = format!("{messages} messages");
            self.assert_at_least(&what, met, rounds * wanted, settings);
        }
        for (power, &met) in self.data_bytes.iter().enumerate() {
            let what = format!("2^{power} data bytes and up");
            self.assert_at_least(&what, met, rounds, settings);
        }
    }

    fn assert_at_least(&self, what: &str, met: u64, wanted: u64, settings: Settings) {
        assert!(
            met >= wanted,
            "seed {}: {what} met {met} times in {} inputs, wanted {wanted}",
            settings.seed,
            self.inputs
        );
    }
}

#[test]
fn library_agrees_with_the_reference_on_every_input() {
    let settings = Settings::from_env();
    let mut tally = Tally::new();
    let rounds = inputs::run(settings, |input| {
        let expected = expected(input);
        let got = Answers::of_library(input.frame);
        assert_eq!(
            got,
            expected,
            "library on the left, reference on the right: {}",
            input.describe()
        );
        tally.add(&expected);
        ControlFlow::Continue(())
    });
    println!(
        "seed {}: {} inputs in {rounds} rounds, by refusal {:?}",
        settings.seed, tally.inputs, tally.refusals
    );
    assert!(tally.inputs >= settings.inputs);
    tally.assert_enough(rounds, settings);
}

#[test]
fn the_inputs_tell_every_faulty_reader_apart() {
    // The first inputs of those above; a fault must not take all of them to show.
    let settings = Settings::from_env();
    let settings = Settings {
        inputs: settings.inputs.min(50_000),
        ..settings
    };
    let mut told_apart = vec![0u64; Fault::ALL.len()];
    let rounds = inputs::run(settings, |input| {
        let expected = expected(input);
        assert_eq!(
            faulty::answers(input.frame, None),
            expected,
            "a reader without a fault is told apart: {}",
            input.describe()
        );
        for (fault, told_apart) in Fault::ALL.iter().zip(&mut told_apart) {
            *told_apart += u64::from(faulty::answers(input.frame, Some(*fault)) != expected);
        }
        ControlFlow::Continue(())
    });
    let mut missed = Vec::new();
    for (fault, told_apart) in Fault::ALL.iter().zip(told_apart) {
        println!("{fault:?}: told apart by {told_apart} inputs in {rounds} rounds");
        if told_apart < rounds {
            missed.push(fault);
        }
    }
    assert!(
        missed.is_empty(),
        "seed {}: told apart less than once a round: {missed:?}",
        settings.seed
    );
}

#[test]
fn inputs_are_the_same_for_the_same_seed_only() {
    let frames = |seed| {
        let mut frames = Vec::new();
        let settings = Settings { seed, inputs: 1 };
        inputs::run(settings, |input| {
            frames.push(input.frame.to_vec());
            if frames.len() < 2_000 {
                ControlFlow::Continue(())
            } else {
                ControlFlow::Break(())
            }
        });
        frames
    };
    assert!(frames(7) == frames(7));
    assert!(frames(7) != frames(8));
}

#[test]
fn whole_case_reads_as_shown() {
    assert_eq!(
        Answers::of_library(&WHOLE_CASE),
        Answers {
            refusal: 0,
            destination: 1,
            source: 2,
            number: 0,
            ack_start: 0,
            ack_count: 0,
            flags: 1,
            messages: 1,
            data_bytes: 4,
        }
    );
    for length in 0..WHOLE_CASE.len() {
        let refused = Answers {
            refusal: if length < 10 { 1 } else { 5 },
            ..Answers::default()
        };
        let cut = &WHOLE_CASE[..length];
        assert_eq!(Answers::of_library(cut), refused, "first {length} bytes");
    }
}

#[test]
fn class_agrees_with_the_reference() {
    let mut met = [0; 5];
    for number in 0..=100_000 {
        let class = refusal::class(number);
        assert_eq!(logwhisker::raw::refusal_class(number), class as u32);
        assert_eq!(
            logwhisker::refusal_class(number) as u32,
            class as u32,
            "{number}"
        );
        met[class as usize] += 1;
    }
    assert_eq!(met, [100_001 - 22, 6, 6, 2, 8]);

    // Numbers that would have a class if only some of their bits were looked at.
    for low in 0..=64 {
        for bit in 8..32 {
            check_class_none(low | 1 << bit);
        }
        for shift in [8, 16, 24] {
            check_class_none((low + 1) << shift);
        }
        check_class_none(u32::MAX - low);
        check_class_none(i32::MAX as u32 - low);
    }
}

/// Names, numbers and classes of the wrapper are those of the rules.
#[test]
fn refusals_by_name() {
    // These have no class.
    let without = [15, 17, 19, 28, 29, 30, 31, 40, 41, 42];
    let due = (0..1_000)
        .filter(|number| without.contains(number) || refusal::class(*number) != Class::None);
    let named = Refusal::ALL.iter().map(|refusal| refusal.number());
    assert!(named.eq(due));
    for refusal in Refusal::ALL {
        let class = refusal::class(refusal.number());
        assert_eq!(refusal.class() as u32, class as u32, "{refusal}");
        assert_eq!(Some(refusal.to_string().as_str()), refusal.name());
    }
    let shown = [Refusal::PAST_FRAME_END, Refusal::NOT_HELD].map(|refusal| refusal.to_string());
    assert_eq!(shown, ["PAST_FRAME_END", "NOT_HELD"]);
    let other = Refusal::from_number(18).expect("only 0 is none");
    assert_eq!(
        (other.name(), other.to_string().as_str()),
        (None, "refusal 18")
    );
    assert_eq!(Refusal::from_number(0), None);
}

#[test]
fn layout_as_one_value() {
    let layout = Layout::of(&WHOLE_CASE).expect("it can be read");
    assert_eq!(
        (layout.destination, layout.source, layout.number),
        (1, 2, 0)
    );
    assert_eq!(
        (layout.ack_start, layout.ack_count, layout.flags),
        (0, 0, 1)
    );
    assert_eq!((layout.messages, layout.data_bytes), (1, 4));
    assert_eq!(Layout::of(&WHOLE_CASE[..37]), Err(Refusal::PAST_FRAME_END));
}

fn check_class_none(number: u32) {
    assert_eq!(refusal::class(number), Class::None, "{number}");
    assert_eq!(logwhisker::raw::refusal_class(number), 0, "{number}");
}
