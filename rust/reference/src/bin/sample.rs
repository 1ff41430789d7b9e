//! Writes a small input for the replay program and its output, `stdin` and `stdout`
//! in the folder given, to be stored as the program's test. Each line is put down
//! with the answer worked out by hand, which the reference has to give as well.

#![forbid(unsafe_code)]

use reference::cases::WHOLE_CASE;
use reference::replay;
use reference::wire::{Message, write_frame};
use std::path::Path;
use std::{env, fs};

/// Lines with the answers that are due.
#[derive(Default)]
struct Script {
    input: Vec<u8>,
    answers: String,
}

impl Script {
    fn line(&mut self, line: impl AsRef<[u8]>, answer: &str) {
        self.input.extend(line.as_ref());
        self.input.push(b'\n');
        self.answers += answer;
        self.answers.push('\n');
    }

    fn frame(&mut self, number: u16, messages: &[Message], answer: &str) {
        self.line(hex(&write_frame(1, 2, number, messages)), answer);
    }
}

fn hex(bytes: &[u8]) -> String {
    bytes.iter().map(|byte| format!("{byte:02x}")).collect()
}

/// A message that writes at 8 and completes at 1,024.
fn part(transaction: u32, count: u16, data: &[u8]) -> Message<'_> {
    Message {
        transaction,
        completion_address: 1_024,
        completion_value: 0xcafe_f00d,
        count,
        data_address: 8,
        data,
    }
}

/// A completion without data messages.
fn bare(transaction: u32) -> Message<'static> {
    part(transaction, 0, &[])
}

fn main() {
    let folder = env::args_os().nth(1).expect("the folder to write to");
    let mut script = Script::default();
    lines(&mut script);
    layout(&mut script);
    frame_numbers(&mut script);
    messages(&mut script);
    windows_in_a_frame(&mut script);
    long_lines(&mut script);

    // The last line goes without its newline.
    script.input.pop();
    let output = replay::output(&script.input);
    let answers: Vec<&str> = output.lines().collect();
    for (index, (got, due)) in answers.iter().zip(script.answers.lines()).enumerate() {
        assert_eq!(*got, due, "line {}", index + 1);
    }
    assert_eq!(answers.len(), script.answers.lines().count() + 1);
    let folder = Path::new(&folder);
    fs::create_dir_all(folder).expect("the folder can be made");
    fs::write(folder.join("stdin"), &script.input).expect("the input can be written");
    fs::write(folder.join("stdout"), &output).expect("the output can be written");
    println!(
        "{} lines, {}",
        answers.len() - 1,
        answers[answers.len() - 1]
    );
}

/// The whole case, and lines that are no frames. Leaves next 1 and lowest 1.
fn lines(script: &mut Script) {
    let whole = hex(&WHOLE_CASE);
    script.line(&whole, "A 0 1 4 1");
    script.line(&whole, "G 0");
    script.line(whole.to_uppercase(), "G 0");
    script.line(whole.replace("0a0b0c0d", "0A0b0C0d"), "G 0");
    script.line("", "R 1");
    script.line("0", "R 14");
    script.line("00", "R 1");
    script.line("g", "R 14");
    script.line("0g", "R 14");
    script.line("G0", "R 14");
    script.line("  ", "R 14");
    script.line("0x", "R 14");
    script.line("\r", "R 14");
    script.line("\0\0", "R 14");
    script.line([0xff, 0xff], "R 14");
    script.line([0xb0, 0xb0], "R 14");
    script.line([0x10, 0x10], "R 14");
    for character in ["/", ":", "@", "G", "`", "g"] {
        script.line(character.repeat(2), "R 14");
    }
    script.line(format!("{whole}\r"), "R 14");
    script.line(format!("{whole} "), "R 14");
    script.line(format!("0x{whole}"), "R 14");
    script.line(&whole[..75], "R 14");
    script.line(&whole[..74], "R 5");
    script.line(format!("{whole}0"), "R 14");
    script.line(format!("{whole}00"), "G 0");
}

/// Refusals 1 to 5 and no messages, whose order shows where two are due. Nothing of
/// this is accepted.
fn layout(script: &mut Script) {
    let good = write_frame(1, 2, 1, &[bare(1)]);
    script.line(hex(&good[..9]), "R 1");
    script.line(hex(&good[..10]), "R 5");
    script.line(hex(&good[..33]), "R 5");
    for (byte, value) in [(0, 2), (0, 0), (1, 1), (2, 1), (3, 2)] {
        let mut frame = good.clone();
        frame[byte] = value;
        script.line(hex(&frame), "R 3");
        frame[9] = 3;
        script.line(hex(&frame), "R 3");
    }
    for bit in 1..8 {
        let mut frame = good.clone();
        frame[9] |= 1 << bit;
        script.line(hex(&frame), "R 4");
    }
    script.line("01000200010000000002", "R 4");
    script.line("01000200010000000003", "R 4");
    script.line("01000200010000000001", "R 5");
    // A flag that is clear, with acknowledgements, any number and anything behind.
    script.line("01000200010000000000", "N");
    script.line("010002000000ffffff00", "N");
    script.line("01000200ff7f0000000012345678", "N");
    script.line("0100020000800000000001", "N");
    // A message too many is announced, and data goes past the end.
    let mut frame = good.clone();
    frame[33] = 1;
    script.line(hex(&frame), "R 5");
    frame[33] = 0;
    frame[30] = 1;
    script.line(hex(&frame), "R 5");
    // In the second message, after a first one that would be refused by 7.
    let two = write_frame(1, 2, 1, &[bare(33), bare(1)]);
    script.line(hex(&two[..two.len() - 1]), "R 5");
    script.line(hex(&two), "R 7");
    // Broken, and ahead or behind.
    let ahead = write_frame(1, 2, 65, &[bare(1)]);
    script.line(hex(&ahead[..33]), "R 5");
    let behind = write_frame(1, 2, 0, &[bare(1)]);
    script.line(hex(&behind[..33]), "R 5");
}

/// Both sides of every edge of the frame window. Leaves next 4 and lowest 3.
fn frame_numbers(script: &mut Script) {
    script.frame(65, &[bare(1)], "R 6");
    script.frame(65, &[bare(99)], "R 6");
    script.frame(32_768, &[bare(1)], "R 6");
    script.frame(32_769, &[bare(1)], "G 32769");
    script.frame(65_535, &[bare(99)], "G 65535");
    script.frame(0, &[bare(99)], "G 0");
    script.frame(64, &[part(1, 2, &[1, 2, 3])], "A 64 1 3 0");
    script.frame(64, &[part(1, 2, &[1, 2, 3])], "G 64");
    script.frame(2, &[bare(2)], "A 2 1 0 1");
    script.frame(66, &[part(1, 2, &[])], "R 6");
    script.frame(1, &[part(1, 2, &[])], "A 1 1 0 1");
    // Next is 3 now: past 1 and past 2.
    script.frame(67, &[bare(3)], "R 6");
    script.frame(2, &[bare(3)], "G 2");
    script.frame(3, &[part(3, 1_000, &[5; 20])], "A 3 1 20 0");
}

/// Refusals 7 to 12, alone and together, and memory's end. Transaction 3 is open from
/// before and stays so; 4 is closed. Leaves next 13.
fn messages(script: &mut Script) {
    let three = part(3, 1_000, &[]);
    script.frame(4, &[bare(4), bare(34)], "A 4 2 0 2");
    script.frame(5, &[bare(2)], "R 7");
    script.frame(5, &[bare(35)], "R 7");
    script.frame(5, &[bare(u32::MAX)], "R 7");
    script.frame(5, &[bare(1 << 31)], "R 7");
    script.frame(5, &[bare(4)], "R 8");
    script.frame(5, &[part(34, 5, &[1])], "R 8");
    script.frame(5, &[part(3, 999, &[])], "R 9");
    script.frame(5, &[bare(3)], "R 9");
    script.frame(5, &[part(3, 0, &[1])], "R 9");
    for bit in [0, 9] {
        let mut message = three;
        message.completion_address ^= 1 << bit;
        script.frame(5, &[message], "R 9");
    }
    for bit in [0, 31] {
        let mut message = three;
        message.completion_value ^= 1 << bit;
        script.frame(5, &[message], "R 9");
    }
    script.frame(5, &[part(5, 0, &[1])], "R 10");
    let at = |data_address, data, completion_address| Message {
        data_address,
        completion_address,
        ..part(5, 2, data)
    };
    script.frame(5, &[at(4_096, &[1], 0)], "R 11");
    script.frame(5, &[at(4_095, &[1, 2], 0)], "R 11");
    script.frame(5, &[at(4_097, &[], 0)], "R 11");
    script.frame(5, &[at(u32::MAX, &[1], 0)], "R 11");
    script.frame(5, &[at(u32::MAX, &[], 0)], "R 11");
    script.frame(5, &[at(u32::MAX - 1, &[1, 2, 3], 0)], "R 11");
    script.frame(5, &[at(0, &[1], 4_093)], "R 12");
    script.frame(5, &[at(0, &[], 4_096)], "R 12");
    script.frame(5, &[at(0, &[], u32::MAX)], "R 12");
    script.frame(5, &[at(0, &[], u32::MAX - 3)], "R 12");
    script.frame(5, &[at(4_097, &[], 4_093)], "R 11");
    script.frame(
        5,
        &[Message {
            count: 0,
            ..at(4_096, &[1], 4_093)
        }],
        "R 10",
    );
    script.frame(
        5,
        &[Message {
            data_address: 4_097,
            ..bare(5)
        }],
        "R 11",
    );
    // The first of two refusals counts, and the good ones before it do nothing.
    script.frame(5, &[bare(5), at(0, &[], 4_093)], "R 8");
    script.frame(5, &[bare(6), at(0, &[], 4_093), bare(99)], "R 12");
    // 5 and 6 are still to be had. Both fill memory to its very end.
    script.frame(5, &[at(4_096, &[], 4_092)], "A 5 1 0 0");
    script.frame(6, &[at(4_092, &[1, 2, 3, 4], 4_092)], "A 6 1 4 1");
    script.frame(7, &[at(0, &[], 0)], "R 8");
    script.frame(7, &[bare(6)], "A 7 1 0 1");
    // Unused fields, the gap and junk behind are ignored. Any trailing byte but 0
    // announces another message, also one that is not there.
    let mut frame = write_frame(1, 2, 8, &[part(7, 2, &[1]), part(7, 2, &[2, 3])]);
    frame[24..26].fill(0xee);
    frame[32] = 0xee;
    frame[35..42].fill(0xee);
    frame.extend([0xee; 5]);
    for trailing in [2, 128, 255] {
        frame[65] = trailing;
        script.line(hex(&frame), "R 5");
    }
    frame[65] = 0;
    script.line(hex(&frame), "A 8 2 3 1");
    let mut frame = write_frame(1, 2, 9, &[part(8, 3, &[1]), part(8, 3, &[2, 3])]);
    frame[33] = 255;
    frame[6..9].fill(0xff);
    script.line(hex(&frame), "A 9 2 3 0");
    // Several messages of several transactions, in any order.
    let (eight, nine) = (part(8, 3, &[2, 3]), part(9, 3, &[4]));
    script.frame(10, &[nine, eight, nine], "A 10 3 4 1");
    script.frame(12, &[nine], "A 12 1 1 1");
    script.frame(11, &[three, part(3, 1_000, &[7; 8])], "A 11 2 8 0");
    script.frame(13, &[part(9, 3, &[])], "R 8");
}

/// Transactions that end inside a frame and move the window there.
fn windows_in_a_frame(script: &mut Script) {
    // 3 has had 3 of its messages, and a frame holds 374: 249 are left after these.
    let three = part(3, 1_000, &[]);
    script.frame(13, &[three; 374], "A 13 374 0 0");
    script.frame(14, &[three; 374], "A 14 374 0 0");
    script.frame(15, &[bare(35)], "R 7");
    let mut last = vec![three; 249];
    last.push(three);
    script.frame(15, &last, "R 7");
    last.pop();
    last.extend([bare(10), bare(36)]);
    // 3 is complete with its last message, so that 36 comes in reach: 4 to 9 are closed.
    script.frame(15, &last, "A 15 251 0 3");
    script.frame(16, &[bare(3)], "R 7");
    script.frame(16, &[bare(11), bare(11)], "R 7");
    script.frame(16, &[bare(12), bare(12)], "R 8");
    script.frame(16, &[bare(43)], "R 7");
    script.frame(16, &[bare(42), bare(11), bare(43)], "A 16 3 0 3");
    script.frame(17, &[bare(12), bare(44), bare(13), bare(45)], "A 17 4 0 4");
    script.frame(18, &[bare(46)], "R 7");
}

/// Both sides of the longest line.
fn long_lines(script: &mut Script) {
    let mut frame = write_frame(1, 2, 18, &[bare(14)]);
    frame.resize(9_000, 0x5a);
    let longest = hex(&frame);
    script.line(&longest, "A 18 1 0 1");
    script.line(format!("{longest}5"), "R 14");
    script.line(format!("{}5A", longest.to_uppercase()), "R 2");
    script.line(format!("{longest}5g"), "R 14");
    script.line(hex(&write_frame(1, 2, 19, &[bare(15)])), "A 19 1 0 1");
}
