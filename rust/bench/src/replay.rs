//! The replay program as one writes it for speed: input in large pieces, digits by a
//! table, and one buffer each for a line, its bytes and what is written. A test beside
//! it compares its output with the reference's.

use crate::plain::host::{Answer, Host};
use std::io::{self, BufRead, Write};

/// Bytes of the replay's memory.
pub const MEMORY: usize = 4_096;
const MOST_LINES: usize = 1_000_000;
const NO_DIGIT: u8 = 0xff;

/// The value of each character that is a hexadecimal digit.
const DIGITS: [u8; 256] = {
    let mut digits = [NO_DIGIT; 256];
    let mut value = 0;
    while value < 16 {
        digits[b"0123456789abcdef"[value] as usize] = value as u8;
        digits[b"0123456789ABCDEF"[value] as usize] = value as u8;
        value += 1;
    }
    digits
};

/// The bytes that a line spells; false where it spells none.
fn decode(line: &[u8], bytes: &mut Vec<u8>) -> bool {
    bytes.clear();
    let mut bad = line.len() as u8 & 1;
    bytes.extend(line.chunks_exact(2).map(|pair| {
        let (high, low) = (DIGITS[usize::from(pair[0])], DIGITS[usize::from(pair[1])]);
        bad |= (high | low) & 0xf0;
        high << 4 | (low & 0x0f)
    }));
    bad == 0
}

/// The whole program.
pub fn run(mut input: impl BufRead, mut output: impl Write) -> io::Result<()> {
    let (mut host, _) = Host::open(1, 2);
    let mut memory = [0; MEMORY];
    let mut totals = [0u64; 3];
    let (mut line, mut frame) = (Vec::new(), Vec::new());
    for _ in 0..MOST_LINES {
        line.clear();
        if input.read_until(b'\n', &mut line)? == 0 {
            break;
        }
        if line.last() == Some(&b'\n') {
            line.pop();
        }
        if !decode(&line, &mut frame) {
            output.write_all(b"R 14\n")?;
            continue;
        }
        match host.receive(&frame, &mut memory) {
            Answer::Accepted {
                number,
                messages,
                bytes,
                completed,
                ..
            } => {
                for (total, more) in totals.iter_mut().zip([messages, bytes, completed]) {
                    *total += u64::from(more);
                }
                writeln!(output, "A {number} {messages} {bytes} {completed}")?;
            }
            Answer::Again { number, .. } => writeln!(output, "G {number}")?,
            Answer::NoMessages => output.write_all(b"N\n")?,
            Answer::Refused { number, .. } => writeln!(output, "R {number}")?,
        }
    }
    writeln!(output, "T {} {} {}", totals[0], totals[1], totals[2])?;
    output.flush()
}
