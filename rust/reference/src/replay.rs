//! The replay program: lines of hexadecimal in, one line for each out, and the sums
//! over accepted frames last. It works on any stream, so that tests and the program
//! beside it run the same code.

use crate::host::{Answer, Host};
use crate::refusal;
use std::fmt;
use std::io::{self, BufRead, Write};

/// Bytes of the program's memory (P3).
pub const MEMORY: usize = 4_096;
/// The host's ID (P2).
pub const OWN: u16 = 1;
/// The card's ID (P2).
pub const PEER: u16 = 2;
/// Lines after which nothing more is read (P8).
pub const MOST_LINES: u64 = 1_000_000;

/// Sums over accepted frames. A million frames can carry more than 2^32 bytes.
#[derive(Clone, Copy, Debug, Default, PartialEq, Eq)]
pub struct Totals {
    /// Messages.
    pub messages: u64,
    /// Data bytes.
    pub bytes: u64,
    /// Complete transactions.
    pub completed: u64,
}

impl Totals {
    /// Adds what the answer counts; only an accepted frame's counts anything.
    pub fn add(&mut self, answer: Answer) {
        if let Answer::Accepted {
            messages,
            bytes,
            completed,
            ..
        } = answer
        {
            self.messages += messages;
            self.bytes += bytes;
            self.completed += completed;
        }
    }
}

impl fmt::Display for Totals {
    /// The replay's last line.
    fn fmt(&self, f: &mut fmt::Formatter) -> fmt::Result {
        write!(f, "T {} {} {}", self.messages, self.bytes, self.completed)
    }
}

/// The program between two lines.
#[derive(Clone, Debug)]
pub struct Replay {
    host: Host,
    memory: [u8; MEMORY],
    totals: Totals,
}

impl Replay {
    /// The program before its first line.
    pub fn new() -> Replay {
        Replay {
            host: Host::open(OWN, PEER).0,
            memory: [0; MEMORY],
            totals: Totals::default(),
        }
    }

    /// Answers one line, given without its newline.
    pub fn line(&mut self, line: &[u8]) -> Answer {
        let answer = match bytes_of(line) {
            Some(frame) => self.host.receive(&frame, &mut self.memory),
            None => Answer::Refused {
                number: refusal::BAD_LINE,
                place: 0,
            },
        };
        self.totals.add(answer);
        answer
    }

    /// The sums so far.
    pub fn totals(&self) -> Totals {
        self.totals
    }

    /// The host as the lines so far left it.
    pub fn host(&self) -> &Host {
        &self.host
    }

    /// The memory as the lines so far left it.
    pub fn memory(&self) -> &[u8] {
        &self.memory
    }
}

impl Default for Replay {
    fn default() -> Replay {
        Replay::new()
    }
}

/// The bytes that a line spells, unless it has to be refused (N14).
pub fn bytes_of(line: &[u8]) -> Option<Vec<u8>> {
    if line.len() % 2 == 1 {
        return None;
    }
    line.chunks(2)
        .map(|pair| Some(16 * digit(pair[0])? + digit(pair[1])?))
        .collect()
}

fn digit(character: u8) -> Option<u8> {
    match character {
        b'0'..=b'9' => Some(character - b'0'),
        b'a'..=b'f' => Some(character - b'a' + 10),
        b'A'..=b'F' => Some(character - b'A' + 10),
        _ => None,
    }
}

/// The whole program.
pub fn run(mut input: impl BufRead, mut output: impl Write) -> io::Result<()> {
    let mut replay = Replay::new();
    let mut line = Vec::new();
    for _ in 0..MOST_LINES {
        line.clear();
        // No byte at all is the end. A last line without a newline is therefore one
        // exactly if it is not empty (P6).
        if input.read_until(b'\n', &mut line)? == 0 {
            break;
        }
        line.pop_if(|last| *last == b'\n');
        writeln!(output, "{}", replay.line(&line))?;
    }
    writeln!(output, "{}", replay.totals())?;
    output.flush()
}

/// What the program writes for this input.
pub fn output(input: &[u8]) -> String {
    let mut output = Vec::new();
    run(input, &mut output).expect("memory is read and written without errors");
    String::from_utf8(output).expect("the program writes plain letters and digits")
}

#[cfg(test)]
mod tests {
    use super::*;
    use crate::cases::WHOLE_CASE;
    use crate::wire::{Message, write_frame};

    fn hex(bytes: &[u8]) -> String {
        bytes.iter().map(|byte| format!("{byte:02x}")).collect()
    }

    /// What the lines are answered, without the sums.
    fn answers(lines: &[&str]) -> Vec<String> {
        let output = output(lines.join("\n").as_bytes());
        let mut answers: Vec<String> = output.lines().map(str::to_string).collect();
        assert!(answers.pop().unwrap().starts_with("T "));
        answers
    }

    #[test]
    fn whole_case() {
        let line = concat!(
            "0100020000000000000100000000400000004433221101000000000000000400",
            "00000a0b0c0d"
        );
        assert_eq!(line, hex(&WHOLE_CASE));
        let input = format!("{line}\n{line}\n");
        assert_eq!(output(input.as_bytes()), "A 0 1 4 1\nG 0\nT 1 4 1\n");

        let mut replay = Replay::new();
        replay.line(line.as_bytes());
        replay.line(line.as_bytes());
        let mut expected = [0; MEMORY];
        expected[0..4].copy_from_slice(&[0x0a, 0x0b, 0x0c, 0x0d]);
        expected[64..68].copy_from_slice(&[0x44, 0x33, 0x22, 0x11]);
        assert_eq!(replay.memory(), expected);
    }

    #[test]
    fn endings() {
        let line = hex(&WHOLE_CASE);
        assert_eq!(output(b""), "T 0 0 0\n");
        assert_eq!(output(b"\n"), "R 1\nT 0 0 0\n");
        assert_eq!(output(b"\n\n"), "R 1\nR 1\nT 0 0 0\n");
        assert_eq!(output(line.as_bytes()), "A 0 1 4 1\nT 1 4 1\n");
        assert_eq!(output(b"0"), "R 14\nT 0 0 0\n");
        let input = format!("\n{line}\n\n{line}");
        assert_eq!(
            output(input.as_bytes()),
            "R 1\nA 0 1 4 1\nR 1\nG 0\nT 1 4 1\n"
        );
    }

    #[test]
    fn either_letter_case_also_in_one_byte() {
        let mut frame = WHOLE_CASE.to_vec();
        frame.truncate(34);
        frame[30] = 0;
        frame[22] = 0;
        frame[18..22].copy_from_slice(&[0xab, 0xcd, 0xef, 0xfa]);
        let lower = hex(&frame);
        let upper = lower.to_uppercase();
        let mixed = lower.replace("abcdeffa", "aBCdEffA");
        assert!(lower != upper && mixed != lower && mixed != upper);
        for line in [lower, upper, mixed] {
            assert_eq!(answers(&[&line]), ["A 0 1 0 1"]);
        }
    }

    #[test]
    fn every_character_but_digits_is_refused() {
        for character in (0..=255).filter(|character| *character != b'\n') {
            let is_digit = char::from(character).is_ascii_hexdigit();
            for place in 0..2 {
                let mut line = [b'0'; 2];
                line[place] = character;
                let expected = if is_digit {
                    "R 1\nT 0 0 0\n"
                } else {
                    "R 14\nT 0 0 0\n"
                };
                assert_eq!(output(&line), expected, "{character} at {place}");
            }
        }
        let line = hex(&WHOLE_CASE);
        for bad in [
            format!("{line}\r"),
            format!("{line} "),
            format!(" {line}"),
            format!("0x{line}"),
            format!("{line}0"),
            line[..75].to_string(),
        ] {
            assert_eq!(answers(&[&bad]), ["R 14"], "{bad:?}");
        }
    }

    #[test]
    fn bad_lines_come_before_all_other_refusals() {
        // Each pair is a line with another refusal, and the same made a bad line.
        let long = "f".repeat(18_002);
        let wrong_id = "f".repeat(100);
        for (line, refusal) in [("ff", "R 1"), (&long, "R 2"), (&wrong_id, "R 3")] {
            assert_eq!(answers(&[line]), [refusal]);
            assert_eq!(answers(&[&format!("{line}f")]), ["R 14"]);
            assert_eq!(answers(&[&format!("{line}fg")]), ["R 14"]);
            assert_eq!(answers(&[&line.replacen('f', "g", 1)]), ["R 14"]);
        }
    }

    #[test]
    fn both_sides_of_the_longest_line() {
        let mut longest = hex(&[1, 0, 2, 0, 0, 0, 0, 0, 0, 0]);
        longest += &"5a".repeat(8_990);
        assert_eq!(longest.len(), 18_000);
        assert_eq!(
            answers(&[
                &longest,
                &format!("{longest}5"),
                &format!("{longest}5a"),
                &format!("{longest}5g"),
                &"5a".repeat(100_000),
                &format!("{}5", "5a".repeat(100_000)),
            ]),
            ["N", "R 14", "R 2", "R 14", "R 2", "R 14"]
        );
    }

    #[test]
    fn nothing_is_read_after_a_million_lines() {
        let line = hex(&WHOLE_CASE);
        for (before, last) in [(999_999, "A 0 1 4 1"), (1_000_000, "R 1")] {
            let mut input = "\n".repeat(before);
            input += &line;
            let output = output(input.as_bytes());
            let lines: Vec<&str> = output.lines().collect();
            assert_eq!(lines.len(), 1_000_001);
            assert!(lines[..999_999].iter().all(|line| *line == "R 1"));
            assert_eq!(lines[999_999], last);
            let totals = if last == "R 1" { "T 0 0 0" } else { "T 1 4 1" };
            assert_eq!(lines[1_000_000], totals);
        }
    }

    #[test]
    fn sums_pass_32_bits_and_count_accepted_frames_only() {
        let mut totals = Totals::default();
        let most = Answer::Accepted {
            number: 0,
            messages: 374,
            bytes: 8_966,
            completed: 374,
            run: 255,
        };
        for _ in 0..1_000_000 {
            totals.add(most);
            totals.add(Answer::Again { number: 0, run: 1 });
            totals.add(Answer::NoMessages);
            totals.add(Answer::Refused {
                number: 1,
                place: 0,
            });
        }
        assert_eq!(totals.to_string(), "T 374000000 8966000000 374000000");
    }

    #[test]
    fn place_is_not_printed() {
        let bare = Message {
            transaction: 0,
            completion_address: 0,
            completion_value: 0,
            count: 0,
            data_address: 0,
            data: &[],
        };
        let frame = write_frame(1, 2, 0, &[bare; 3]);
        assert_eq!(answers(&[&hex(&frame)]), ["R 7"]);
    }
}
