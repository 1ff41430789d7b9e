//! Runs the proved replay program and its sister, which runs the plain host, and
//! compares all that both write with the independent one. `LW_SEED` and `LW_LINES`
//! choose the seed and the number of generated lines, `LW_REPLAY` and
//! `LW_REPLAY_PLAIN` other programs; a difference is shown with the line that made it.

mod faulty_host;
mod programs;

use faulty_host::{Fault, Faulty, Seen};
use reference::cases::WHOLE_CASE;
use reference::host::{Answer, Host};
use reference::refusal;
use reference::replay::{self, MOST_LINES, Replay};
use reference::settings::{count_from_env, number_from_env};
use reference::traffic::{Kind, Traffic};
use reference::wire::{Message, write_frame};
use std::fs::{self, File};
use std::io::{self, Read, Write};
use std::path::Path;
use std::process::{Child, Command, ExitStatus};
use std::sync::mpsc::{SyncSender, sync_channel};
use std::thread::{self, JoinHandle};
use std::time::{Duration, Instant};

const DEFAULT_SEED: u64 = 1;
const DEFAULT_LINES: u64 = 2_000_000;
/// The program and its sister.
const PROGRAMS: [&str; 2] = ["replay", "replay_plain"];
/// Lines of one run of a program: several times all frame numbers, and fewer than
/// it reads.
const RUN: u64 = 500_000;
/// Bytes handed to the program at once.
const CHUNK: usize = 1 << 16;

/// The program at work, with a thread that feeds it and one that reads it, so that
/// neither side waits for the other with a full pipe.
struct Running {
    child: Child,
    input: SyncSender<Vec<u8>>,
    writer: JoinHandle<io::Result<()>>,
    reader: JoinHandle<io::Result<Vec<u8>>>,
}

impl Running {
    fn start(program: &str) -> Running {
        let (child, mut stdin, mut stdout) = programs::start(program);
        let (input, chunks) = sync_channel::<Vec<u8>>(16);
        let writer = thread::spawn(move || chunks.iter().try_for_each(|c| stdin.write_all(&c)));
        let reader = thread::spawn(move || {
            let mut output = Vec::new();
            stdout.read_to_end(&mut output)?;
            Ok(output)
        });
        Running {
            child,
            input,
            writer,
            reader,
        }
    }

    /// Hands on what comes next. A program that has stopped reading is no error here:
    /// what it has written decides.
    fn feed(&self, chunk: Vec<u8>) {
        let _ = self.input.send(chunk);
    }

    /// Ends the input and gives all that was written.
    fn finish(self) -> Vec<u8> {
        drop(self.input);
        let written = self.writer.join().expect("the writer does not panic");
        if let Err(error) = written {
            assert_eq!(error.kind(), io::ErrorKind::BrokenPipe, "{error}");
        }
        let output = self.reader.join().expect("the reader does not panic");
        let mut child = self.child;
        check(child.wait().expect("a child can be waited for"));
        output.expect("a pipe can be read")
    }
}

fn check(status: ExitStatus) {
    assert!(status.success(), "the program ended with {status}");
}

/// What both programs write for this input, which must be the same.
fn output_of(input: &[u8]) -> String {
    let [first, sister] = PROGRAMS.map(|program| {
        let running = Running::start(program);
        for chunk in input.chunks(CHUNK) {
            running.feed(chunk.to_vec());
        }
        text(running.finish())
    });
    let differs = first_difference(first.as_bytes(), sister.as_bytes());
    assert_eq!(differs, None, "the programs differ in this line");
    first
}

fn text(output: Vec<u8>) -> String {
    String::from_utf8(output).expect("the program writes plain letters and digits")
}

/// Compares both programs with the independent one on one input.
fn assert_same(input: &[u8]) {
    let got = output_of(input);
    let expected = replay::output(input);
    if let Some(index) = first_difference(got.as_bytes(), expected.as_bytes()) {
        let line = input.split(|byte| *byte == b'\n').nth(index);
        panic!(
            "line {index} is answered {:?} instead of {:?}: {}",
            got.lines().nth(index),
            expected.lines().nth(index),
            line.unwrap_or(b"").escape_ascii()
        );
    }
}

/// The index of the first line that differs.
fn first_difference(got: &[u8], expected: &[u8]) -> Option<usize> {
    if got == expected {
        return None;
    }
    let same = got.iter().zip(expected).take_while(|(a, b)| a == b).count();
    let lines = expected[..same].iter().filter(|byte| **byte == b'\n');
    Some(lines.count())
}

fn hex(bytes: &[u8]) -> String {
    bytes.iter().map(|byte| format!("{byte:02x}")).collect()
}

/// How often each outcome was met.
#[derive(Default)]
struct Tally {
    lines: u64,
    accepted: u64,
    again: u64,
    no_messages: u64,
    refused: [u64; 15],
    /// Accepted frames of more than one message, of more than one complete
    /// transaction, and with number 0.
    several_messages: u64,
    several_completed: u64,
    number_0: u64,
    /// Lines whose answer was known beforehand.
    known: u64,
}

impl Tally {
    fn add(&mut self, answer: Answer) {
        self.lines += 1;
        match answer {
            Answer::Accepted {
                number,
                messages,
                completed,
                ..
            } => {
                self.accepted += 1;
                self.several_messages += u64::from(messages > 1);
                self.several_completed += u64::from(completed > 1);
                self.number_0 += u64::from(number == 0);
            }
            Answer::Again { .. } => self.again += 1,
            Answer::NoMessages => self.no_messages += 1,
            Answer::Refused { number, .. } => self.refused[usize::from(number)] += 1,
        }
    }

    /// Without these numbers an agreement could be one about next to nothing.
    fn assert_enough(&self, seed: u64) {
        let mut wanted = vec![
            ("accepted", self.accepted, 40_000),
            ("again", self.again, 10_000),
            ("no messages", self.no_messages, 500),
            ("several messages", self.several_messages, 10_000),
            ("several completed", self.several_completed, 2_000),
            ("known beforehand", self.known, 30_000),
        ];
        let least = [
            300, 80, 300, 600, 800, 1_000, 800, 800, 2_000, 300, 500, 200,
        ];
        for (number, least) in (1..=12).zip(least) {
            wanted.push(("a refusal of 1 to 12", self.refused[number], least));
        }
        wanted.push(("refusal 14", self.refused[14], 1_500));
        for (what, met, in_100_000) in wanted {
            let wanted = self.lines * in_100_000 / 100_000;
            assert!(
                met >= wanted,
                "seed {seed}: {what} met {met} times in {} lines, wanted {wanted}; refused {:?}",
                self.lines,
                self.refused
            );
        }
        assert_eq!(self.refused[0] + self.refused[13], 0);
        assert!(self.number_0 >= 4 * (self.lines / RUN), "too few wraps");
    }
}

fn kind_of_run(run: u64) -> Kind {
    match run % 2 {
        0 => Kind::Network,
        _ => Kind::Guided,
    }
}

/// The seed of one run; runs of one seed have nothing in common with those of the
/// next.
fn seed_of_run(seed: u64, run: u64) -> u64 {
    seed.wrapping_mul(1_000_003).wrapping_add(run)
}

#[test]
fn programs_agree_with_the_reference_on_generated_lines() {
    let seed = number_from_env("LW_SEED", DEFAULT_SEED);
    let lines = count_from_env("LW_LINES", DEFAULT_LINES);
    let mut tally = Tally::default();
    for run in 0..lines.div_ceil(RUN) {
        compare_run(seed, run, RUN.min(lines - run * RUN), &mut tally);
    }
    println!(
        "seed {seed}: {} lines, {} accepted, {} again, {} without messages, refused {:?}",
        tally.lines, tally.accepted, tally.again, tally.no_messages, tally.refused
    );
    assert_eq!(tally.lines, lines);
    if lines >= 100_000 {
        tally.assert_enough(seed);
    }
}

fn compare_run(seed: u64, run: u64, lines: u64, tally: &mut Tally) {
    let kind = kind_of_run(run);
    let run_seed = seed_of_run(seed, run);
    let mut traffic = Traffic::new(run_seed, kind);
    let mut reference = Replay::new();
    let mut expected = Vec::new();
    let running = PROGRAMS.map(|program| (program, Running::start(program)));
    let feed_all = |chunk: Vec<u8>| {
        running.iter().for_each(|(_, at)| at.feed(chunk.clone()));
    };
    let mut chunk = Vec::new();
    for index in 0..lines {
        let line = traffic.next_line();
        let answer = reference.line(line.text);
        if let Some(known) = line.known {
            tally.known += 1;
            assert_eq!(
                answer.to_string(),
                known.to_string(),
                "the reference on the left: seed {run_seed}, {kind:?}, line {index}, family '{}'",
                line.family
            );
        }
        tally.add(answer);
        writeln!(expected, "{answer}").expect("memory takes any text");
        chunk.extend(line.text);
        // The last line of every other pair of runs goes without its newline.
        if index + 1 < lines || run % 4 < 2 || line.text.is_empty() {
            chunk.push(b'\n');
        }
        if chunk.len() >= CHUNK {
            feed_all(std::mem::take(&mut chunk));
        }
    }
    feed_all(chunk);
    writeln!(expected, "{}", reference.totals()).expect("memory takes any text");
    for (program, at_work) in running {
        check_output(program, &at_work.finish(), &expected, run_seed, kind);
    }
}

/// Shows the line where what a program has written for a run is not what is expected.
fn check_output(program: &str, got: &[u8], expected: &[u8], run_seed: u64, kind: Kind) {
    if let Some(index) = first_difference(got, expected) {
        let line_of = |output: &[u8]| {
            let line = output.split(|byte| *byte == b'\n').nth(index);
            String::from_utf8_lossy(line.unwrap_or(b"")).into_owned()
        };
        let mut traffic = Traffic::new(run_seed, kind);
        traffic.text(index);
        let line = traffic.next_line();
        panic!(
            "{program}: seed {run_seed}, {kind:?}, line {index}, family '{}': {:?} instead of {:?} for {}",
            line.family,
            line_of(got),
            line_of(expected),
            line.text.escape_ascii()
        );
    }
}

#[test]
fn whole_case() {
    let line = hex(&WHOLE_CASE);
    let input = format!("{line}\n{line}\n");
    assert_eq!(output_of(input.as_bytes()), "A 0 1 4 1\nG 0\nT 1 4 1\n");
}

#[test]
fn endings() {
    let line = hex(&WHOLE_CASE);
    let cases = [
        (String::new(), "T 0 0 0\n"),
        ("\n".to_string(), "R 1\nT 0 0 0\n"),
        ("\n\n\n".to_string(), "R 1\nR 1\nR 1\nT 0 0 0\n"),
        ("0".to_string(), "R 14\nT 0 0 0\n"),
        ("00".to_string(), "R 1\nT 0 0 0\n"),
        ("\r\n".to_string(), "R 14\nT 0 0 0\n"),
        ("\r".to_string(), "R 14\nT 0 0 0\n"),
        ("\0".to_string(), "R 14\nT 0 0 0\n"),
        (line.clone(), "A 0 1 4 1\nT 1 4 1\n"),
        (format!("{line}\n"), "A 0 1 4 1\nT 1 4 1\n"),
        (format!("{line}\n\n"), "A 0 1 4 1\nR 1\nT 1 4 1\n"),
        (format!("\n{line}"), "R 1\nA 0 1 4 1\nT 1 4 1\n"),
        (format!("{line}\r\n{line}\n"), "R 14\nA 0 1 4 1\nT 1 4 1\n"),
        (format!("{line}\n{line}0"), "A 0 1 4 1\nR 14\nT 1 4 1\n"),
    ];
    for (input, expected) in cases {
        assert_eq!(output_of(input.as_bytes()), expected, "{input:?}");
        assert_eq!(replay::output(input.as_bytes()), expected, "{input:?}");
    }
}

/// Lines whose lengths meet the ends of buffers that a program may read by.
#[test]
fn long_lines() {
    let mut input = Vec::new();
    let head = hex(&write_frame(1, 2, 0, &[]));
    for length in [
        20, 4_095, 4_096, 4_097, 8_192, 17_998, 17_999, 18_000, 18_001, 18_002, 18_003, 32_768,
        36_000, 65_535, 65_536, 65_537, 131_072, 1_000_000, 1_000_001,
    ] {
        for bad in [None, Some(0), Some(17_999), Some(length - 1)] {
            let mut line = head.clone().into_bytes();
            line.resize(length, b'A');
            if let Some(bad) = bad
                && bad < length
            {
                line[bad] = b'g';
            }
            input.extend(line);
            input.push(b'\n');
        }
    }
    assert_same(&input);
    // The same, with the last line going on to the end.
    input.pop();
    assert_same(&input);
}

#[test]
fn every_byte_in_every_place_of_a_byte() {
    let mut input = Vec::new();
    for byte in (0..=255).filter(|byte| *byte != b'\n') {
        for line in [&[byte][..], &[byte, b'0'], &[b'0', byte], &[byte, byte]] {
            input.extend(line);
            input.push(b'\n');
            // In a frame that would be an "again", or is no frame.
            input.extend(hex(&WHOLE_CASE[..36]).as_bytes());
            input.extend(line);
            input.extend(b"00\n");
        }
    }
    assert_same(&input);
}

/// Pipes may bring any number of bytes at a time.
#[test]
fn byte_by_byte() {
    PROGRAMS.into_iter().for_each(in_small_pieces);
}

fn in_small_pieces(program: &str) {
    let input = Traffic::new(11, Kind::Guided).text(40);
    let running = Running::start(program);
    for (index, byte) in input.iter().enumerate() {
        running.feed(vec![*byte]);
        // Long enough for the program to have read it, at least for some lines.
        if index < 1_500 {
            thread::sleep(Duration::from_micros(200));
        }
    }
    assert_eq!(text(running.finish()), replay::output(&input));

    let mut rng = reference::rng::Rng::new(12);
    let input = Traffic::new(13, Kind::Network).text(3_000);
    let running = Running::start(program);
    let mut rest = &input[..];
    while !rest.is_empty() {
        let (piece, later) = rest.split_at(rng.between(1, 700).min(rest.len()));
        running.feed(piece.to_vec());
        rest = later;
    }
    assert_eq!(text(running.finish()), replay::output(&input));
}

#[test]
fn input_from_a_file() {
    let path = Path::new(env!("CARGO_TARGET_TMPDIR")).join("replay-input");
    let input = Traffic::new(14, Kind::Guided).text(5_000);
    fs::write(&path, &input).expect("the folder is there for tests to write to");
    for program in PROGRAMS {
        let output = Command::new(programs::path(program))
            .stdin(File::open(&path).expect("it was written"))
            .output()
            .expect("the program starts");
        check(output.status);
        assert_eq!(text(output.stdout), replay::output(&input));
    }
}

#[test]
fn nothing_is_read_after_a_million_lines() {
    let line = hex(&WHOLE_CASE);
    // The frame is the last line that is read, and then the first that is not.
    for (empty, last, totals) in [
        (MOST_LINES - 1, "A 0 1 4 1", "T 1 4 1"),
        (MOST_LINES, "R 1", "T 0 0 0"),
    ] {
        for end in ["", "\n", "\n\n\n"] {
            let mut input = "\n".repeat(empty as usize);
            input += &line;
            input += end;
            let output = output_of(input.as_bytes());
            let lines: Vec<&str> = output.lines().collect();
            assert_eq!(lines.len() as u64, MOST_LINES + 1);
            assert!(lines[..999_999].iter().all(|line| *line == "R 1"));
            assert_eq!(lines[999_999..], [last, totals]);
        }
    }
}

/// A program must not wait for a line that it will not answer.
#[test]
fn it_ends_after_a_million_lines_though_the_pipe_stays_open() {
    PROGRAMS.into_iter().for_each(ends_by_itself);
}

fn ends_by_itself(program: &str) {
    let mut running = Running::start(program);
    running.feed(vec![b'\n'; MOST_LINES as usize]);
    let start = Instant::now();
    let status = loop {
        if let Some(status) = running.child.try_wait().expect("a child can be asked") {
            break status;
        }
        if start.elapsed() > Duration::from_secs(30) {
            running.child.kill().expect("a child can be ended");
            running.child.wait().expect("a child can be waited for");
            panic!("still reading after {MOST_LINES} lines");
        }
        thread::sleep(Duration::from_millis(5));
    };
    check(status);
    let output = text(running.finish());
    assert_eq!(output.lines().count() as u64, MOST_LINES + 1);
    assert!(output.ends_with("R 1\nT 0 0 0\n"));
}

/// Frames that carry more than 2^32 data bytes between them: 9 GB of digits go through the pipe.
#[test]
fn sums_pass_32_bits() {
    let data = [0x5a; 4_096];
    let message = |transaction, length| Message {
        transaction,
        completion_address: 4_092,
        completion_value: 1,
        count: 1,
        data_address: 0,
        data: &data[..length],
    };
    let running = Running::start("replay");
    let mut reference = Replay::new();
    let mut expected = Vec::new();
    let messages = [message(0, 4_096), message(1, 4_096), message(2, 726)];
    let mut line = hex(&write_frame(1, 2, 0, &messages)).into_bytes();
    assert_eq!(line.len(), 18_000);
    line.push(b'\n');
    for number in 0..482_000u32 {
        line[8..12].copy_from_slice(hex(&(number as u16).to_le_bytes()).as_bytes());
        for (index, header) in [10, 4_130, 8_250].into_iter().enumerate() {
            let transaction = 3 * number + index as u32;
            let digits = hex(&transaction.to_le_bytes());
            line[2 * header..2 * header + 8].copy_from_slice(digits.as_bytes());
        }
        running.feed(line.clone());
        let answer = reference.line(&line[..18_000]);
        assert!(matches!(answer, Answer::Accepted { .. }));
        writeln!(expected, "{answer}").expect("memory takes any text");
    }
    assert!(reference.totals().bytes > u64::from(u32::MAX));
    writeln!(expected, "{}", reference.totals()).expect("memory takes any text");
    assert!(running.finish() == expected);
}

/// Where and when a fault was seen first.
struct Suspect {
    fault: Fault,
    faulty: Faulty,
    seen: Option<(Seen, u64)>,
}

impl Suspect {
    fn all(next: u16, lowest: u32) -> Vec<Suspect> {
        let faults = Fault::ALL.iter();
        faults
            .map(|fault| Suspect {
                fault: *fault,
                faulty: Faulty::new(Some(*fault), next, lowest),
                seen: None,
            })
            .collect()
    }
}

fn without_place(answer: Answer) -> Answer {
    match answer {
        Answer::Refused { number, .. } => Answer::Refused { number, place: 0 },
        answer => answer,
    }
}

/// What the program tells of an answer: not the place, and not the run.
fn told(answer: Answer) -> Answer {
    let mut told = without_place(answer);
    if let Answer::Accepted { run, .. } | Answer::Again { run, .. } = &mut told {
        *run = 0;
    }
    told
}

/// Lets every fault have the lines until it is seen, and gives when that was.
fn suspects_seen(mut traffic: Traffic, next: u16, lowest: u32, lines: u64) -> Vec<Suspect> {
    let mut suspects = Suspect::all(next, lowest);
    let mut sound = Faulty::new(None, next, lowest);
    let mut host = Host::starting_at(1, 2, next, lowest);
    let mut memory = vec![0; replay::MEMORY];
    for index in 0..lines {
        let line = traffic.next_line();
        let expected = without_place(answer_to(line.text, &mut host, &mut memory));
        let acknowledgement = host.acknowledgement(expected, 0);
        let got = sound.line(line.text);
        assert_eq!(got, Some(expected), "without a fault, line {index}");
        assert_eq!(sound.acknowledgement(expected), acknowledgement);
        assert!(sound.memory() == memory, "without a fault, line {index}");
        for suspect in suspects.iter_mut().filter(|suspect| suspect.seen.is_none()) {
            let got = suspect.faulty.line(line.text);
            let sent = got.and_then(|answer| suspect.faulty.acknowledgement(answer));
            // What spoils the windows shows in runs too, and it must show in lines.
            let in_lines = suspect.fault.seen() == Seen::Output;
            let seen = if got.map(told) != Some(told(expected)) {
                Seen::Output
            } else if !in_lines && sent != acknowledgement {
                Seen::Acknowledgement
            } else if suspect.fault.seen() == Seen::Memory && suspect.faulty.memory() != memory {
                Seen::Memory
            } else {
                continue;
            };
            suspect.seen = Some((seen, index));
        }
    }
    suspects
}

/// As the program answers, for a host in any state.
fn answer_to(line: &[u8], host: &mut Host, memory: &mut [u8]) -> Answer {
    match replay::bytes_of(line) {
        Some(frame) => host.receive(&frame, memory),
        None => Answer::Refused {
            number: refusal::BAD_LINE,
            place: 0,
        },
    }
}

#[test]
fn the_lines_tell_every_faulty_program_apart() {
    let seed = number_from_env("LW_SEED", DEFAULT_SEED);
    // The first lines of the first two runs above; a fault must not take all of them.
    let run = |run| {
        let traffic = Traffic::new(seed_of_run(seed, run), kind_of_run(run));
        suspects_seen(traffic, 0, 0, 60_000)
    };
    let (network, guided) = (run(0), run(1));
    // Both numbers come to their ends soon after. A window may step over the end at
    // once, so there are several starts.
    let ends: Vec<Vec<Suspect>> = (0..8)
        .map(|start| {
            let (next, lowest) = (65_530 - start as u16, u32::MAX - 5 * start);
            let traffic = Traffic::starting_at(seed_of_run(seed, start.into()), next, lowest);
            suspects_seen(traffic, next, lowest, 2_500)
        })
        .collect();

    let mut missed = Vec::new();
    for (index, fault) in Fault::ALL.iter().enumerate() {
        let [network, guided] = [&network, &guided].map(|all| all[index].seen);
        let end = ends.iter().find_map(|all| all[index].seen);
        println!("{fault:?}: network {network:?}, guided {guided:?}, past the end {end:?}");
        let fresh = [network, guided];
        let seen = fresh
            .iter()
            .flatten()
            .any(|(seen, _)| *seen == fault.seen());
        let enough = match fault.seen() {
            Seen::PastTheEnd => end.is_some() && fresh == [None, None],
            _ => seen,
        };
        // A fault that lines do not show must not have been seen in them.
        let wrong = fresh
            .iter()
            .flatten()
            .any(|(seen, _)| *seen != fault.seen());
        if !enough || wrong {
            missed.push(fault);
        }
    }
    assert!(missed.is_empty(), "seed {seed}: not told apart: {missed:?}");
}
