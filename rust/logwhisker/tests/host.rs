//! Compares the proved host, in place and by value, with the independent one through the
//! exported functions: after every frame the answer, the acknowledgement, memory, the
//! description and the state, in states that runs reach and in any others. `LW_SEED` and
//! `LW_FRAMES` choose the seed and the number of generated frames; a difference is shown
//! with the seed, the run and the frame.

#[path = "both/host.rs"]
mod both;
// Lines and acknowledgements are for the test of the program.
#[allow(dead_code)]
mod faulty_host;

use both::plain::Plain;
use both::{Both, acknowledged, acknowledged_by_value};
use faulty_host::{Fault, Faulty, Seen};
use logwhisker::raw::{ANSWER_WORDS, HOST_WORDS};
use logwhisker::{Answer as Answered, Host as Proved, Refusal};
use reference::cases::{WHOLE_CASE, WHOLE_CASE_ACKNOWLEDGEMENT};
use reference::host::{Answer, Host};
use reference::replay::{self, OWN, PEER};
use reference::rng::Rng;
use reference::settings::{count_from_env, number_from_env};
use reference::traffic::{Kind, Traffic};
use reference::wire::{
    self, FRAME_HEADER, LONGEST_FRAME, MESSAGE_HEADER, Message, next_header, write_frame,
};
use std::collections::BTreeMap;

const DEFAULT_SEED: u64 = 1;
const DEFAULT_FRAMES: u64 = 400_000;
/// The memories of the runs in turn: those in which nothing, hardly anything and
/// not much fits, the one that the frames are made for, and a far larger one.
const MEMORIES: [usize; 10] = [4_096, 68, 65_536, 4, 4_096, 0, 68, 4_096, 3, 4];

/// Frames, and the memory they are received into.
struct Run {
    /// For the message of a failure.
    name: String,
    frames: Vec<Vec<u8>>,
    memory: Vec<u8>,
}

impl Run {
    /// Compares both hosts after every frame; `see` is called with each answer.
    fn compare(&self, mut both: Both, mut see: impl FnMut(Answer)) {
        for (index, frame) in self.frames.iter().enumerate() {
            let name = || format!("{}, frame {index}: {}", self.name, hex(frame));
            see(both.receive(frame, index as u16, &name));
        }
    }

    fn fresh(&self) -> Both {
        Both::open(OWN, PEER, &self.memory)
    }
}

fn hex(bytes: &[u8]) -> String {
    let shown = &bytes[..bytes.len().min(400)];
    shown.iter().map(|byte| format!("{byte:02x}")).collect()
}

/// Runs of one seed have nothing in common with those of the next.
fn seed_of_run(seed: u64, run: u64) -> u64 {
    seed.wrapping_mul(1_000_003).wrapping_add(run)
}

/// A run of generated frames from a fresh start.
fn generated(seed: u64, run: u64) -> Run {
    let run_seed = seed_of_run(seed, run);
    let mut rng = Rng::new(!run_seed);
    let kind = [Kind::Network, Kind::Guided, Kind::Apart][(run % 3) as usize];
    let turns = MEMORIES.len() as u64;
    let memory = MEMORIES[(run % turns) as usize];
    // Many frames bring the host to states that few do not.
    let lines = match rng.below(6) {
        0..2 => rng.between(1, 60),
        2..5 => rng.between(100, 600),
        _ if memory <= 4 => 100,
        _ => rng.between(600, 4_000),
    };
    let mut traffic = Traffic::new(run_seed, kind);
    let frames = (0..lines)
        .filter_map(|_| replay::bytes_of(traffic.next_line().text))
        .map(|frame| fitted(frame, memory))
        .collect();
    let before = match run / turns % 2 {
        0 => vec![0; memory],
        _ => rng.bytes(memory),
    };
    Run {
        name: format!("seed {seed}, run {run}, {kind:?}, memory of {memory}"),
        frames,
        memory: before,
    }
}

/// The frame with its addresses, and data that is too long for it, changed so that
/// what was in a memory of 4,096 bytes is in this one, and what was not, is not.
fn fitted(frame: Vec<u8>, memory: usize) -> Vec<u8> {
    if memory == replay::MEMORY || memory < 4 || frame.len() < FRAME_HEADER {
        return frame;
    }
    let mut fitted = frame[..FRAME_HEADER].to_vec();
    let mut at = FRAME_HEADER;
    while let Some(header) = frame.get(at..at + MESSAGE_HEADER) {
        let four = |at: usize| header[at..at + 4].try_into().map(u32::from_le_bytes);
        let [completion, address] = [4, 16].map(|at| four(at).expect("there are four"));
        let start = at + MESSAGE_HEADER;
        let length = usize::from(u16::from_le_bytes([header[20], header[21]]));
        let Some(data) = frame.get(start..start + length) else {
            break;
        };
        let data = &data[..length.min(memory)];
        let completion = moved(completion, 4, 4, memory);
        let address = moved(address, length, data.len(), memory);
        fitted.resize(next_header(fitted.len()), 0);
        fitted.extend(&header[..4]);
        fitted.extend(completion.to_le_bytes());
        fitted.extend(&header[8..16]);
        fitted.extend(address.to_le_bytes());
        fitted.extend((data.len() as u16).to_le_bytes());
        fitted.extend(&header[22..]);
        fitted.extend(data);
        at = next_header(start + length);
        if !wire::follows(header[23]) {
            break;
        }
    }
    if at < frame.len() {
        fitted.resize(next_header(fitted.len()), 0);
        fitted.extend(&frame[at..]);
    }
    fitted
}

/// The address for `new` bytes in this memory that was one for `old` in another. The
/// ends stay ends, and addresses that differ in one bit differ, if there is room.
fn moved(address: u32, old: usize, new: usize, memory: usize) -> u32 {
    let start = address as usize;
    let last = memory - new;
    match (start + old).checked_sub(replay::MEMORY) {
        None => (31 * start % (last + 1)) as u32,
        Some(0) => last as u32,
        Some(past) if address < 1 << 31 => (last + past) as u32,
        // So that sums of 2^32 stay such.
        Some(_) => address.wrapping_add((old - new) as u32),
    }
}

/// How often each outcome was met.
#[derive(Default)]
struct Tally {
    frames: u64,
    accepted: u64,
    again: u64,
    no_messages: u64,
    refused: [u64; 13],
    /// Accepted frames of more than one message, and of more than one complete
    /// transaction.
    several_messages: u64,
    several_completed: u64,
    /// Answers whose run is of more than one number, of more than the window has, and of
    /// as many as there can be.
    several_in_run: u64,
    long_runs: u64,
    longest_runs: u64,
    /// Accepted frames by the size of memory.
    by_memory: BTreeMap<usize, u64>,
}

impl Tally {
    fn add(&mut self, memory: usize, answer: Answer) {
        self.frames += 1;
        if let Answer::Accepted { run, .. } | Answer::Again { run, .. } = answer {
            self.several_in_run += u64::from(run > 1);
            self.long_runs += u64::from(run > 64);
            self.longest_runs += u64::from(run == 255);
        }
        match answer {
            Answer::Accepted {
                messages,
                completed,
                ..
            } => {
                self.accepted += 1;
                self.several_messages += u64::from(messages > 1);
                self.several_completed += u64::from(completed > 1);
                *self.by_memory.entry(memory).or_default() += 1;
            }
            Answer::Again { .. } => self.again += 1,
            Answer::NoMessages => self.no_messages += 1,
            Answer::Refused { number, .. } => self.refused[usize::from(number)] += 1,
        }
    }

    fn print(&self, seed: u64, runs: u64) {
        println!(
            "seed {seed}: {} frames in {runs} runs or states, {} accepted ({:?} by memory, \
             {} with several messages, {} with several completed), {} again, \
             {} with several numbers acknowledged, {} with more than 64, {} with 255, \
             {} without messages, refused {:?}",
            self.frames,
            self.accepted,
            self.by_memory,
            self.several_messages,
            self.several_completed,
            self.again,
            self.several_in_run,
            self.long_runs,
            self.longest_runs,
            self.no_messages,
            self.refused
        );
    }

    /// Without these numbers an agreement could be one about next to nothing.
    fn assert_enough(&self, seed: u64) {
        let in_memory = |size| self.by_memory.get(&size).copied().unwrap_or(0);
        let mut wanted = vec![
            ("accepted", self.accepted, 40_000),
            ("again", self.again, 12_000),
            ("no messages", self.no_messages, 800),
            ("several messages", self.several_messages, 20_000),
            ("several completed", self.several_completed, 5_000),
            ("several in a run", self.several_in_run, 2_000),
            ("the longest run", self.longest_runs, 100),
            ("accepted into 4", in_memory(4), 2_500),
            ("accepted into 68", in_memory(68), 12_000),
            ("accepted into 4,096", in_memory(4_096), 12_000),
            ("accepted into 65,536", in_memory(65_536), 4_000),
        ];
        let least = [
            500, 50, 800, 800, 800, 3_000, 1_500, 500, 1_000, 200, 1_500, 150,
        ];
        for (number, least) in (1..=12).zip(least) {
            wanted.push(("a refusal of 1 to 12", self.refused[number], least));
        }
        for (what, met, in_100_000) in wanted {
            let wanted = self.frames * in_100_000 / 100_000;
            assert!(
                met >= wanted,
                "seed {seed}: {what} met {met} times in {} frames, wanted {wanted}; refused {:?}",
                self.frames,
                self.refused
            );
        }
        // A completion takes four bytes.
        assert_eq!(in_memory(0) + in_memory(3), 0);
    }
}

#[test]
fn frames_of_every_kind() {
    let seed = number_from_env("LW_SEED", DEFAULT_SEED);
    let frames = count_from_env("LW_FRAMES", DEFAULT_FRAMES);
    let mut tally = Tally::default();
    let mut runs = 0;
    while tally.frames < frames {
        let run = generated(seed, runs);
        run.compare(run.fresh(), |answer| tally.add(run.memory.len(), answer));
        runs += 1;
    }
    tally.print(seed, runs);
    if frames >= 100_000 {
        tally.assert_enough(seed);
    }
}

/// Both numbers come to their ends soon after the start.
#[test]
fn frames_past_the_ends_of_the_numbers() {
    let seed = number_from_env("LW_SEED", DEFAULT_SEED);
    let mut tally = Tally::default();
    for start in 0..24u64 {
        let (next, lowest) = (65_530 - start as u16, u32::MAX - 5 * start as u32);
        let mut traffic = Traffic::starting_at(seed_of_run(seed, start), next, lowest);
        let lines = (0..2_500).filter_map(|_| replay::bytes_of(traffic.next_line().text));
        let run = Run {
            name: format!("seed {seed}, next {next}, lowest {lowest}"),
            frames: lines.collect(),
            memory: vec![0; replay::MEMORY],
        };
        let words = Host::starting_at(OWN, PEER, next, lowest).to_words();
        let both = Both::from_words(words, &run.memory);
        run.compare(both, |answer| tally.add(run.memory.len(), answer));
    }
    tally.print(seed, 24);
    assert!(tally.frames > 50_000 && tally.accepted > 10_000 && tally.again > 5_000);
}

/// One run that goes through all the frame numbers twice, out of order and with late
/// copies; the runs above are too short for that.
#[test]
fn frame_numbers_that_come_round() {
    const FRAMES: u64 = 140_000;
    const LATENESS: [u64; 12] = [
        1, 63, 64, 65, 32_736, 32_767, 32_768, 32_769, 32_832, 65_472, 65_536, 65_600,
    ];
    let seed = number_from_env("LW_SEED", DEFAULT_SEED);
    let mut rng = Rng::new(seed);
    let mut frames = Vec::new();
    let mut written: Vec<Vec<u8>> = Vec::new();
    while (written.len() as u64) < FRAMES {
        let start = written.len();
        for number in start..start + rng.between(1, 32) {
            let message = Message {
                transaction: number as u32,
                completion_address: rng.between(0, 4_092) as u32,
                completion_value: rng.next_u32(),
                count: 1,
                data_address: rng.between(0, 4_090) as u32,
                data: &rng.bytes(6),
            };
            written.push(write_frame(OWN, PEER, number as u16, &[message]));
        }
        let mut order: Vec<usize> = (start..written.len()).collect();
        while !order.is_empty() {
            frames.push(written[order.swap_remove(rng.below(order.len()))].clone());
            let late = rng.pick(&LATENESS) as usize;
            if let Some(number) = start.checked_sub(late) {
                frames.push(written[number].clone());
            }
        }
    }
    let run = Run {
        name: format!("seed {seed}, all frame numbers"),
        frames,
        memory: rng.bytes(4_096),
    };
    let mut tally = Tally::default();
    run.compare(run.fresh(), |answer| tally.add(run.memory.len(), answer));
    assert_eq!(tally.accepted, written.len() as u64);
    let late = [tally.again, tally.refused[6], tally.refused[7]];
    for met in [&late[..], &[tally.several_in_run, tally.longest_runs]].concat() {
        assert!(met > 1_000, "{} again, {:?}", tally.again, tally.refused);
    }
}

/// Any words: of every kind of value for each field, and of none in particular.
fn any_words(rng: &mut Rng) -> [u64; HOST_WORDS] {
    let mut words = [0; HOST_WORDS];
    words.fill_with(|| rng.next_u64());
    if rng.chance(1, 8) {
        return words;
    }
    let ids = u64::from(OWN) | u64::from(PEER) << 16;
    let next = rng.pick(&[0, 1, 32_768, 65_500, 65_535, words[0] >> 32 & 0xffff]);
    words[0] = ids | next << 32 | words[0] >> 48 << 48;
    words[1] = any_marks(rng);
    let lowest = rng.pick(&[0, 1, 31, 32, u64::from(u32::MAX - 5), words[2] >> 32]);
    words[2] = lowest | any_marks(rng) << 32;
    for place in 0..32 {
        let count = rng.pick(&[0, 1, 2, 3, 4, 65_535]);
        // Below the count, at it and above, and where a sum of 16 bits ends.
        let received = match rng.below(8) {
            0..3 => 0,
            3 => 65_535,
            4 => 65_534,
            5 => count,
            _ => rng.below(5) as u64,
        };
        let unnamed = words[4 + 2 * place] >> 32 << 32;
        words[4 + 2 * place] = count | received << 16 | unnamed;
        let target = rng.below(60) as u64;
        words[3 + 2 * place] = target | words[3 + 2 * place] >> 32 << 32;
    }
    words
}

fn any_marks(rng: &mut Rng) -> u64 {
    match rng.below(6) {
        0 => 0,
        1 => u64::MAX,
        2 => u64::MAX >> rng.below(64),
        3 => u64::MAX << rng.below(64),
        4 => rng.next_u64() & rng.next_u64(),
        _ => rng.next_u64(),
    }
}

/// A frame that is aimed at this state: numbers around its windows, and messages that
/// mostly say what the table does.
fn frame_for(words: &[u64; HOST_WORDS], memory: usize, rng: &mut Rng) -> Vec<u8> {
    let (own, peer) = (words[0] as u16, (words[0] >> 16) as u16);
    let (next, mut lowest) = ((words[0] >> 32) as u16, words[2] as u32);
    let data = rng.bytes(16);
    let steps = [0, 0, 1, 2, 5, 31, 62, 63, 63, 64, 32_767, 32_768, 65_535];
    // Behind by so few that marks are in the run, and by just enough for the longest one.
    let behind = rng.between(65_536 - 260, 65_535) as u16;
    let number = next.wrapping_add(match rng.below(4) {
        // The lowest one that is not marked, which is the one to be accepted.
        0 => words[1].trailing_ones() as u16,
        1 => rng.pick(&steps),
        2 if rng.chance(1, 2) => behind,
        _ => rng.below(64) as u16,
    });
    let mut messages = Vec::new();
    for _ in 0..rng.pick(&[1, 1, 1, 2, 3, 6, 20]) {
        let closed = words[2] >> 32;
        let step = match rng.below(12) {
            0 => rng.pick(&[31, 32, 33, u32::MAX]),
            1..6 => (closed as u32).trailing_ones(),
            _ => rng.below(32) as u32,
        };
        let transaction = lowest.wrapping_add(step);
        let at = 3 + 2 * (transaction as usize % 32);
        let open = words[at + 1] >> 16 & 0xffff > 0;
        let keep = open || rng.chance(1, 2);
        let count = words[at + 1] as u16;
        let address = words[at] as u32;
        let length = if count == 0 {
            rng.pick(&[0, 0, 0, 3])
        } else {
            rng.below(17)
        };
        let edge = memory.saturating_sub(length) as u32;
        messages.push(Message {
            transaction,
            completion_address: if keep {
                address
            } else {
                rng.below(memory + 2) as u32
            },
            completion_value: if keep {
                (words[at] >> 32) as u32
            } else {
                rng.next_u32()
            },
            count: if keep && !rng.chance(1, 30) {
                count
            } else {
                rng.below(4) as u16
            },
            data_address: rng.pick(&[0, 0, 7, 7, edge, edge, edge, edge, edge + 1]),
            data: &data[..length],
        });
        // As if this one had closed its transaction; often it has.
        lowest = lowest.wrapping_add(rng.below(2) as u32);
    }
    let mut frame = write_frame(own, peer, number, &messages);
    match rng.below(120) {
        0 => frame.truncate(rng.below(FRAME_HEADER)),
        1 => frame.resize(LONGEST_FRAME + rng.between(1, 9), 0),
        2 => frame[rng.below(4)] ^= 1,
        3 => frame[9] = 0,
        4..7 => {
            let at = rng.below(frame.len());
            frame[at] ^= 1 << rng.below(8);
        }
        _ => {}
    }
    frame
}

/// States that no run reaches: all marks set, more received than counted, marks at the
/// next number, transactions both open and closed, and bits that have no meaning.
#[test]
fn any_state_is_answered_alike() {
    let seed = number_from_env("LW_SEED", DEFAULT_SEED);
    let frames = count_from_env("LW_FRAMES", DEFAULT_FRAMES);
    let mut rng = Rng::new(seed ^ 0x5eed);
    let mut tally = Tally::default();
    let (mut states, mut full) = (0, 0);
    while tally.frames < frames {
        let words = any_words(&mut rng);
        states += 1;
        full += u64::from(words[1] == u64::MAX);
        let memory = rng.pick(&[64, 64, 64, 64, 64, 80, 80, 80, 3, 0]);
        let mut both = Both::from_words(words, &rng.bytes(memory));
        for index in 0..rng.between(1, 12) {
            let frame = frame_for(both.words(), memory, &mut rng);
            let state = *both.words();
            let name = || {
                format!(
                    "seed {seed}, state {states}, frame {index}: {} in {state:x?}",
                    hex(&frame)
                )
            };
            tally.add(memory, both.receive(&frame, rng.next_u16(), &name));
        }
    }
    tally.print(seed, states);
    assert!(
        full * 20 > states,
        "{full} of {states} states with all marks"
    );
    let least = [
        0, 500, 500, 500, 20, 100, 1_000, 400, 1_000, 1_000, 100, 1_000, 1_000,
    ];
    for (number, least) in least.iter().enumerate() {
        let wanted = tally.frames * least / 100_000;
        assert!(
            tally.refused[number] >= wanted,
            "{number}: {:?}",
            tally.refused
        );
    }
    let several = (tally.several_messages, tally.several_completed);
    let (nothing, again) = (tally.no_messages, tally.again);
    for (met, least) in [
        (tally.accepted, 50),
        (again, 50),
        (several.0, 10),
        (nothing, 5),
        (several.1, 1),
    ] {
        assert!(
            met * 1_000 > tally.frames * least,
            "{met} of {}",
            tally.frames
        );
    }
    let runs = [
        tally.several_in_run,
        tally.long_runs,
        10 * tally.longest_runs,
    ];
    assert!(runs.iter().all(|met| met * 100 > tally.frames), "{runs:?}");
}

/// Any answer words: kinds 1 and 2 call for an acknowledgement, of the low bits of number
/// and run, unless those of the run are 0.
#[test]
fn any_answer_is_acknowledged_alike() {
    let mut rng = Rng::new(number_from_env("LW_SEED", DEFAULT_SEED));
    let (mut due, mut no_run) = (0, 0);
    for _ in 0..200_000 {
        let words = any_words(&mut rng);
        let host = Host::from_words(&words);
        let mut answer = [0; ANSWER_WORDS];
        answer.fill_with(|| rng.next_u64());
        let round = 1 << rng.pick(&[8, 16, 32, 63]);
        answer[0] = rng.pick(&[0, 1, 1, 2, 2, 3, 4, 5, 1 + round, 2 + round, answer[0]]);
        answer[7] = rng.pick(&[0, 1, 2, 255, 256, 257, round, 1 + round, answer[7]]);
        let number = rng.next_u16();
        let again = Answer::Again {
            number: answer[1] as u16,
            run: answer[7] as u8,
        };
        no_run += u32::from(matches!(answer[0], 1 | 2) && answer[7] % 256 == 0);
        let expected = match answer[0] {
            1 | 2 => host.acknowledgement(again, number),
            _ => None,
        };
        let plain = Plain::from_words(&words, &[]);
        plain.acknowledge(&answer, number, expected, &|| format!("{answer:x?}"));
        let expected = (
            u32::from(expected.is_some()),
            expected.unwrap_or([0xa5; 10]),
        );
        let got = acknowledged(&words, &answer, number);
        assert_eq!(got, expected, "{answer:x?}");
        let got = acknowledged_by_value(&words, &answer, number);
        assert_eq!(got, expected, "by value: {answer:x?}");
        due += got.0;
    }
    assert!(due > 30_000 && no_run > 10_000, "{due}, {no_run}");
}

#[test]
fn openings() {
    let mut refused = 0;
    for (own, peer) in [(0, 2), (1, 0), (0, 0), (1, 2), (5, 5), (65_535, 1)] {
        let mut both = Both::open(own, peer, &[0; 80]);
        for (to, from) in [(own, peer), (peer, own), (0, 0), (1, 2)] {
            let frame = write_frame(to, from, 0, &[whole_message()]);
            both.receive(&frame, 3, &|| format!("{own} {peer}, {to} {from}"));
        }
        let opened = Proved::open(own, peer);
        assert_eq!(opened.is_ok(), own != 0 && peer != 0);
        if let Err(refusal) = opened {
            assert_eq!(refusal, Refusal::ID_ZERO);
            refused += 1;
        }
    }
    assert_eq!(refused, 3);
    let mut host = Proved::open(1, 2).expect("no ID is 0");
    assert_eq!(host.reopen(1, 0), Err(Refusal::ID_ZERO));
    assert_eq!(host.describe(), Proved::new().describe());
    assert_eq!((host.describe().own, host.describe().peer), (0, 0));
}

fn whole_message() -> Message<'static> {
    Message {
        transaction: 0,
        completion_address: 64,
        completion_value: 0x1122_3344,
        count: 1,
        data_address: 0,
        data: &[0x0a, 0x0b, 0x0c, 0x0d],
    }
}

/// The whole case through the safe type.
#[test]
fn whole_case() {
    let mut host = Proved::open(1, 2).expect("no ID is 0");
    let mut memory = [0; 4_096];
    let accepted = Answered::Accepted {
        number: 0,
        messages: 1,
        bytes: 4,
        completed: 1,
        run: 1,
    };
    for expected in [accepted, Answered::Again { number: 0, run: 1 }] {
        let answer = host.receive(&WHOLE_CASE, &mut memory);
        assert_eq!(answer, expected);
        assert_eq!(
            host.acknowledge(&answer, 0),
            Some(WHOLE_CASE_ACKNOWLEDGEMENT)
        );
    }
    let mut expected = [0; 4_096];
    expected[..4].copy_from_slice(&[0x0a, 0x0b, 0x0c, 0x0d]);
    expected[64..68].copy_from_slice(&[0x44, 0x33, 0x22, 0x11]);
    assert!(memory == expected);
    let description = host.describe();
    assert_eq!((description.next, description.lowest), (1, 1));
    assert!(description.open().is_empty());

    // A first message of two, then one that contradicts it.
    let message = Message {
        transaction: 1,
        count: 2,
        ..whole_message()
    };
    host.receive(&write_frame(1, 2, 1, &[message]), &mut memory);
    let open = host.describe();
    let [open] = open.open() else {
        panic!("one transaction is open");
    };
    assert_eq!((open.number, open.count, open.received), (1, 2, 1));
    assert_eq!((open.address, open.value), (64, 0x1122_3344));
    let other = Message {
        count: 3,
        ..message
    };
    let answer = host.receive(&write_frame(1, 2, 2, &[message, other]), &mut memory);
    let refusal = Refusal::TRANSACTION_OUTSIDE_WINDOW;
    assert_eq!(answer, Answered::Refused { refusal, place: 1 });
    assert_eq!(host.acknowledge(&answer, 0), None);
    assert_eq!(
        host.receive(&[], &mut memory).words(),
        [4, 0, 0, 0, 0, 1, 0, 0]
    );
}

/// The run of a repeat as the safe type tells and acknowledges it.
#[test]
fn runs() {
    let mut host = Proved::open(1, 2).expect("no ID is 0");
    let mut memory = [0; 8];
    let message = Message {
        completion_address: 0,
        count: u16::MAX,
        data: &[],
        ..whole_message()
    };
    for (number, run) in [
        (65_500, 36),
        (2, 1),
        (1, 2),
        (0, 3),
        (65_500, 39),
        (65_200, 255),
    ] {
        let frame = write_frame(1, 2, number, &[message]);
        let answer = host.receive(&frame, &mut memory);
        let (Answered::Accepted { run: got, .. } | Answered::Again { run: got, .. }) = answer
        else {
            panic!("{number}: {answer:?}");
        };
        assert_eq!(got, run, "{number}");
        let expected = wire::ack_frame(2, 1, 7, number, run);
        assert_eq!(host.acknowledge(&answer, 7), Some(expected));
    }
}

/// Memories into which the whole case fits, and does not by a byte, and frames of every
/// length behind it.
#[test]
fn lengths() {
    let junk = Rng::new(3).bytes(10_000);
    let given = [&WHOLE_CASE[..], &junk].concat();
    for size in (0..200).chain([8_999, 9_000, 9_001, 9_002, 10_037, 10_038]) {
        for length in [0, 3, 4, 67, 68, 69, 4_096] {
            let mut both = Both::open(OWN, PEER, &vec![0; length]);
            let answer = both.receive(&given[..size], 0, &|| format!("{size}, {length}"));
            let fits = (38..=9_000).contains(&size) && length >= 68;
            assert_eq!(
                matches!(answer, Answer::Accepted { .. }),
                fits,
                "{size}, {length}"
            );
        }
    }
}

#[test]
fn memory_tells_faulty_hosts_apart() {
    let seed = number_from_env("LW_SEED", DEFAULT_SEED);
    let faults = Fault::ALL.iter().copied();
    let faults: Vec<Fault> = faults
        .filter(|fault| fault.seen() == Seen::Memory)
        .collect();
    assert_eq!(faults.len(), 6);
    // The first of the runs above that start as a faulty host does.
    let mut runs = 0;
    let mut seen = vec![0; faults.len()];
    for run in (0..600).map(|run| generated(seed, run)) {
        if run.memory != [0; 4_096] {
            continue;
        }
        runs += 1;
        let mut both = run.fresh();
        let mut sound = Faulty::new(None, 0, 0);
        let mut suspects: Vec<Faulty> = faults
            .iter()
            .map(|fault| Faulty::new(Some(*fault), 0, 0))
            .collect();
        for (index, frame) in run.frames.iter().enumerate() {
            let name = || format!("{}, frame {index}", run.name);
            let answer = without_place(both.receive(frame, 0, &name));
            assert_eq!(sound.frame(frame), answer, "no fault: {}", name());
            for suspect in &mut suspects {
                // Only memory can tell.
                assert_eq!(suspect.frame(frame), answer, "{}", name());
            }
        }
        assert!(sound.memory() == both.memory(), "{}: no fault", run.name);
        for (suspect, seen) in suspects.iter().zip(&mut seen) {
            *seen += u64::from(suspect.memory() != both.memory());
        }
    }
    println!("seed {seed}: {faults:?} seen {seen:?} times in {runs} runs");
    assert!(
        seen.iter().all(|seen| *seen > 0),
        "seed {seed}: {faults:?} seen {seen:?} times in {runs} runs"
    );
}

fn without_place(answer: Answer) -> Answer {
    match answer {
        Answer::Refused { number, .. } => Answer::Refused { number, place: 0 },
        answer => answer,
    }
}
