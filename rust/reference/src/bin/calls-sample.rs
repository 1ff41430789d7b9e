//! Writes a short script for the program `calls` and its answers, `calls.stdin` and
//! `calls.stdout` in the folder given, to be stored as a test. Each line is put down with the answer
//! worked out by hand, which the reference has to give as well.

#![forbid(unsafe_code)]

use reference::calls::{self, digest, hex};
use reference::cases::WHOLE_CASE;
use reference::ends::Sound;
use reference::host::Host;
use reference::wire::{Message, ack_frame, write_frame};
use std::path::Path;
use std::{env, fs};

/// Lines with the answers that are due.
#[derive(Default)]
struct Script {
    input: String,
    answers: String,
}

impl Script {
    fn line(&mut self, line: &str, answer: &str) {
        self.input += line;
        self.input.push('\n');
        self.answers += answer;
        self.answers.push('\n');
    }

    fn lines(&mut self, lines: &[(&str, &str)]) {
        for (line, answer) in lines {
            self.line(line, answer);
        }
    }

    /// An adding to the frame being built and its sealing under this number.
    fn frame(&mut self, transaction: u32, number: u16) {
        self.line(&format!("add {transaction} 0 -"), "ok");
        self.line("seal", &format!("f {number}"));
    }

    fn read(&mut self, start: u16, count: u8) {
        let frame = hex(&ack_frame(2, 1, 0, start, count));
        self.line(&format!("read {frame}"), "ok");
    }

    fn receive(&mut self, number: u16, messages: &[Message], answer: &str) {
        let frame = hex(&write_frame(1, 2, number, messages));
        self.line(&format!("receive {frame}"), answer);
    }
}

fn main() {
    let folder = env::args_os().nth(1).expect("the folder to write to");
    let mut script = Script::default();
    before_opening(&mut script);
    openings(&mut script);
    whole_case(&mut script);
    adding(&mut script);
    windows(&mut script);
    acknowledgements(&mut script);
    showing_and_choosing(&mut script);
    host(&mut script);
    runs(&mut script);
    stored(&mut script);
    table(&mut script);
    full_table(&mut script);
    ledger(&mut script);
    questions(&mut script);
    no_form(&mut script);
    marks(&mut script);
    script.line("seal", "R 24");

    // The last line goes without its newline.
    script.input.pop();
    let output = calls::output(Sound, script.input.as_bytes());
    for (index, (got, due)) in output.lines().zip(script.answers.lines()).enumerate() {
        let line = script.input.lines().nth(index);
        assert_eq!(got, due, "line {}: {line:?}", index + 1);
    }
    assert_eq!(output, script.answers);
    let folder = Path::new(&folder);
    fs::create_dir_all(folder).expect("the folder can be made");
    fs::write(folder.join("calls.stdin"), &script.input).expect("the input can be written");
    fs::write(folder.join("calls.stdout"), &output).expect("the output can be written");
    println!("{} lines", output.lines().count());
}

/// Both ends and the table as a refused opening leaves them, with no bytes lent.
fn before_opening(script: &mut Script) {
    let empty = digest(&[]);
    let bare = hex(&write_frame(0, 0, 0, &[message(0, 0, &[])]));
    script.lines(&[
        ("slots", &empty),
        ("memory", &empty),
        (
            "state",
            "own 0 peer 0 next 0 marks 0000000000000000 lowest 0 closed 00000000",
        ),
        ("add 0 0 -", "R 26"),
        ("seal", "R 26"),
        ("show 0", "R 26"),
        ("choose -", "R 26"),
        ("choose 00000000000000000000", "R 26"),
        ("read -", "R 1"),
        ("read 00000000000000000100", "ok"),
        ("read 02000100000000000100", "R 3"),
        ("receive -", "R 1 place 0"),
        (&format!("receive {bare}"), "R 12 place 0"),
        ("receive 00000000000000000000", "N"),
        ("tablestate", "own 0"),
        ("register 2 0 1 1", "R 13"),
        ("remove 2", "R 3"),
        ("adopt 0 1 1", "R 13"),
        ("deliver 0 00000000000000000000", "R 3 place 0"),
    ]);
    for number in 0..32 {
        script.line("open 1 0 0", &format!("t {number}"));
    }
    script.line("open 1 0 0", "R 20");
}

/// 13 before 26, and both sides of every size.
fn openings(script: &mut Script) {
    script.lines(&[
        ("card 0 1 34 2176 0", "R 13"),
        ("card 2 0 34 2176 0", "R 13"),
        ("card 0 0 33 0 0", "R 13"),
        ("open 1 0 0", "t 0"),
        ("card 2 1 33 2112 0", "R 26"),
        ("add 0 0 -", "R 26"),
        ("card 2 1 9001 576064 0", "R 26"),
        ("card 2 1 34 2175 0", "R 26"),
        ("card 2 1 34 2177 0", "R 26"),
        ("card 2 1 34 0 0", "R 26"),
        ("slots", &digest(&[])),
        ("card 2 1 9000 576000 1", "ok"),
        ("slots", &digest(&[0xa5; 576_000])),
        ("card 65535 65535 34 2176 0", "ok"),
        ("host 0 2 100", "R 13"),
        ("host 1 0 100", "R 13"),
        ("memory", &digest(&[0; 100])),
        ("host 65535 65535 0", "ok"),
    ]);
}

fn whole_case(script: &mut Script) {
    let whole = hex(&WHOLE_CASE);
    let mut memory = [0; 68];
    memory[..4].copy_from_slice(&[0x0a, 0x0b, 0x0c, 0x0d]);
    memory[64..].copy_from_slice(&[0x44, 0x33, 0x22, 0x11]);
    let mut slots = [0xa5; 64 * 38];
    slots[..38].copy_from_slice(&WHOLE_CASE);
    let receive = format!("receive {whole}");
    script.lines(&[
        ("card 2 1 38 2432 0", "ok"),
        ("host 1 2 68", "ok"),
        ("open 1 64 287454020", "t 0"),
        ("add 0 0 0A0B0c0d", "ok"),
        ("slots", &digest(&slots)),
        ("show 0", "R 25"),
        ("seal", "f 0"),
        ("slots", &digest(&slots)),
        ("show 0", &format!("slot 0 {whole}")),
        ("choose -", &format!("slot 0 {whole}")),
        (&receive, "A 0 1 4 1 run 1 ack 02000100000000000100"),
        (&receive, "G 0 run 1 ack 02000100000000000100"),
        ("memory", &digest(&memory)),
        (
            "state",
            "own 1 peer 2 next 1 marks 0000000000000000 lowest 1 closed 00000000",
        ),
        ("read 02000100000000000100", "ok"),
        ("show 0", "R 25"),
        ("choose -", "R 25"),
        ("add 0 0 -", "R 23"),
        ("seal", "R 24"),
    ]);
}

/// Both sides of the limit, and the order 26, 23, 27, 21, 22.
fn adding(script: &mut Script) {
    script.lines(&[
        ("card 2 1 34 2176 0", "ok"),
        ("open 0 0 0", "t 0"),
        ("open 1 0 0", "t 1"),
        ("open 100 0 0", "t 2"),
        ("add 3 0 -", "R 23"),
        ("add 4294967295 0 -", "R 23"),
        ("add 0 0 00", "R 27"),
        ("add 2 0 00", "R 22"),
        ("add 1 0 -", "ok"),
        ("add 1 0 -", "R 23"),
        ("add 1 0 00", "R 23"),
        ("add 2 0 -", "R 22"),
        ("add 0 0 00", "R 27"),
        ("seal", "f 0"),
        ("seal", "R 24"),
    ]);
    for number in 1..64 {
        script.frame(2, number);
    }
    script.lines(&[
        ("add 2 0 -", "R 21"),
        ("add 2 0 00", "R 21"),
        ("add 0 0 00", "R 27"),
        ("add 1 0 -", "R 23"),
        ("seal", "R 24"),
    ]);
    script.read(0, 1);
    script.line("add 2 0 00", "R 22");
    script.frame(0, 64);
    for (limit, answer) in [(65, "R 22"), (66, "ok")] {
        let slots = 64 * limit;
        script.line(&format!("card 2 1 {limit} {slots} 0"), "ok");
        script.line("open 2 0 0", "t 0");
        script.line("add 0 0 ff", "ok");
        script.line("add 0 0 -", answer);
        script.line("seal", "f 0");
    }
    // Two messages, the gap between them and the trailing byte before it.
    let first = "0100020000000000000100000000000000000000000002000000000000000100";
    let gap = "00000000000000";
    let second = "000000000000000000000000020000000000000000000000";
    script.line("show 0", &format!("slot 0 {first}0001ff{gap}{second}"));
}

/// Refusal 20, which finished transactions above an unfinished one do not lift.
fn windows(script: &mut Script) {
    script.line("card 2 1 34 2176 0", "ok");
    for number in 0..32 {
        script.line("open 1 0 0", &format!("t {number}"));
    }
    script.line("open 1 0 0", "R 20");
    for transaction in 1..32 {
        script.frame(transaction, transaction as u16 - 1);
    }
    script.read(0, 31);
    script.line("open 1 0 0", "R 20");
    script.line("add 0 0 -", "ok");
    script.read(30, 2);
    script.line("open 1 0 0", "R 20");
    script.line("seal", "f 31");
    script.read(30, 1);
    script.line("open 1 0 0", "R 20");
    script.read(31, 1);
    script.line("open 1 0 0", "t 32");
    script.line("add 0 0 -", "R 23");
}

/// What a card reads and refuses, and what a range covers.
fn acknowledgements(script: &mut Script) {
    script.line("card 2 1 34 2176 0", "ok");
    script.line("open 9 0 0", "t 0");
    for number in 0..3 {
        script.frame(0, number);
    }
    let long = hex(&[0; 9_001]);
    script.lines(&[
        ("read 020001000000000001", "R 1"),
        (&format!("read {long}"), "R 2"),
        ("read 01000100000000000100", "R 3"),
        ("read 02000200000000000100", "R 3"),
        ("read 02000100000000000102", "R 4"),
        ("read 02000100000000000101", "R 5"),
        ("read 02000100000000000000", "ok"),
    ]);
    let shown = |number| {
        let frame = hex(&write_frame(1, 2, number, &[message(0, 9, &[])]));
        format!("slot {} {frame}", 34 * number)
    };
    script.line("choose -", &shown(0));
    script.read(1, 1);
    script.line("show 1", "R 25");
    script.line("choose -", &shown(0));
    // The range wraps, and past what is sealed.
    script.line("add 0 0 -", "ok");
    script.read(65_530, 7);
    script.line("choose -", &shown(2));
    script.read(3, 255);
    script.line("choose -", &shown(2));
    script.line("seal", "f 3");
    script.line("show 3", &shown(3));
    // A frame with messages acknowledges too.
    let mut frame = write_frame(2, 1, 9, &[message(5, 1, &[1])]);
    frame[6] = 2;
    frame[8] = 2;
    script.line(&format!("read {}", hex(&frame[..34])), "R 5");
    script.line(&format!("read {}", hex(&frame)), "ok");
    script.line("choose -", "R 25");
}

fn showing_and_choosing(script: &mut Script) {
    script.lines(&[
        ("card 2 1 100 6400 0", "ok"),
        ("open 9 1 2", "t 0"),
        ("choose 0102030405060708090a", "lent 0102030405060708090a"),
        ("choose 010203040506070809", "R 25"),
        ("choose 0102030405060708090a0b", "R 25"),
    ]);
    script.frame(0, 0);
    script.line("add 0 7 c0ffee", "ok");
    script.line("seal", "f 1");
    let second = "0100020001000000000100000000010000000200000009000000070000000300";
    script.lines(&[
        ("show 1", &format!("slot 100 {second}0000c0ffee")),
        ("show 2", "R 25"),
        ("show 65535", "R 25"),
        ("choose ffffffffffffffffffff", "lent ffffffffffffffffffff"),
    ]);
}

/// A message that completes at 0.
fn message(transaction: u32, count: u16, data: &[u8]) -> Message<'_> {
    Message {
        transaction,
        completion_address: 0,
        completion_value: 0,
        count,
        data_address: 0,
        data,
    }
}

/// Every refusal of the host with its place, and the other answers.
fn host(script: &mut Script) {
    let bare = |transaction| message(transaction, 0, &[]);
    let long = hex(&[0; 9_001]);
    script.lines(&[
        ("host 1 2 8", "ok"),
        ("receive 01", "R 1 place 0"),
        (&format!("receive {long}"), "R 2 place 0"),
        ("receive 02000200000000000000", "R 3 place 0"),
        ("receive 01000200000000000080", "R 4 place 0"),
        ("receive 01000200000000000001", "R 5 place 0"),
        ("receive 01000200000000000000ff", "N"),
    ]);
    script.receive(64, &[bare(0)], "R 6 place 0");
    script.receive(32_767, &[bare(0)], "R 6 place 0");
    let again = "G 32768 run 255 ack 0200010000000080ff00";
    script.receive(32_768, &[bare(0)], again);
    script.receive(0, &[bare(1), bare(32)], "R 7 place 1");
    script.receive(0, &[bare(1), bare(2), bare(1)], "R 8 place 2");
    let two = message(3, 2, &[1]);
    script.receive(0, &[two, message(3, 3, &[])], "R 9 place 1");
    script.receive(0, &[message(0, 0, &[1])], "R 10 place 0");
    let outside = Message {
        data_address: u32::MAX,
        ..message(1, 1, &[1])
    };
    script.receive(0, &[bare(0), outside], "R 11 place 1");
    let completion = Message {
        completion_address: 5,
        ..bare(4)
    };
    script.receive(0, &[two, completion], "R 12 place 1");
    script.line("memory", &digest(&[0; 8]));
    let accepted = "A 63 2 1 1 run 1 ack 0200010000003f000100";
    script.receive(63, &[two, bare(1)], accepted);
    let state = "own 1 peer 2 next 0 marks 8000000000000000 lowest 0 closed 00000002 [3 0 0 2 1 0]";
    script.line("state", state);
    script.line("memory", &digest(&[0; 8]));
}

/// What one acknowledgement covers: numbers behind, also those that never came, frames
/// that a hole keeps apart, and all of them once it is filled. A card then reads a run.
fn runs(script: &mut Script) {
    script.line("host 1 2 8", "ok");
    for (number, answer) in [
        (65_535, "G 65535 run 1 ack 020001000000ffff0100"),
        (65_500, "G 65500 run 36 ack 020001000000dcff2400"),
        (65_282, "G 65282 run 254 ack 02000100000002fffe00"),
        (65_281, "G 65281 run 255 ack 02000100000001ffff00"),
        (65_280, "G 65280 run 255 ack 02000100000000ffff00"),
        (2, "A 2 1 0 0 run 1 ack 02000100000002000100"),
        (3, "A 3 1 0 0 run 1 ack 02000100000003000100"),
        (2, "G 2 run 2 ack 02000100000002000200"),
        (5, "A 5 1 0 0 run 1 ack 02000100000005000100"),
        (1, "A 1 1 0 0 run 3 ack 02000100000001000300"),
        (65_535, "G 65535 run 1 ack 020001000000ffff0100"),
        (0, "A 0 1 0 0 run 4 ack 02000100000000000400"),
        (65_500, "G 65500 run 40 ack 020001000000dcff2800"),
        (4, "A 4 1 0 0 run 2 ack 02000100000004000200"),
        (0, "G 0 run 6 ack 02000100000000000600"),
        (3, "G 3 run 3 ack 02000100000003000300"),
        (69, "A 69 1 0 0 run 1 ack 02000100000045000100"),
        (70, "R 6 place 0"),
    ] {
        script.receive(number, &[message(0, 9, &[])], answer);
    }
    let state = "own 1 peer 2 next 6 marks 8000000000000000 lowest 0 closed 00000000 [0 0 0 9 7 0]";
    script.line("state", state);

    script.line("card 2 1 34 2176 0", "ok");
    script.line("open 9 0 0", "t 0");
    for number in 0..7 {
        script.frame(0, number);
    }
    let last = hex(&write_frame(1, 2, 6, &[message(0, 9, &[])]));
    script.lines(&[
        ("read 020001000000dcff2800", "ok"),
        ("show 3", "R 25"),
        ("read 02000100000000000600", "ok"),
        ("choose -", &format!("slot 204 {last}")),
    ]);
}

/// A host across the wrap of its transaction numbers, stored, lost and read back.
fn stored(script: &mut Script) {
    let first = "0101000200ffff0600000000000000ffffffff04000000\n";
    let nearest = "ffffffff400000004433221103000100\n";
    let further = "00000000080000000900000002000100\n";
    let text = [first, nearest, further].concat();
    let spelled = |text: &str| hex(text.as_bytes());
    let state = "own 1 peer 2 next 65535 marks 0000000000000006 lowest 4294967295 closed 00000004 \
                 [4294967295 64 287454020 3 1 0] [0 8 9 2 1 0]";
    script.line(&format!("restore {}", spelled(&text)), "ok");
    script.line("state", state);
    script.line("store 113", &format!("n 113 {}", spelled(&text)));
    script.line("store 115", &format!("n 113 {}2e2e", spelled(&text)));
    script.line("store 112", &format!("R 19 {}", "2e".repeat(112)));
    script.line("store 0", "R 19 -");
    // Out of order, in upper case, without its last newline, with one more, with own ID 0.
    let wrong = [
        [first, further, nearest].concat(),
        text.replacen('f', "F", 1),
        text[..112].to_string(),
        text.clone() + "\n",
        text.replacen("0101", "0100", 1),
    ];
    for wrong in wrong {
        script.line(&format!("restore {}", spelled(&wrong)), "R 15");
    }
    let fresh = "own 0 peer 0 next 0 marks 0000000000000000 lowest 0 closed 00000000";
    script.line("state", fresh);
    script.line("store 3", "R 13 2e2e2e");
    script.line("restore -", "R 15");
}

/// A message of four bytes that completes its transaction.
fn whole(transaction: u32, address: u32, completion: u32) -> Message<'static> {
    Message {
        transaction,
        completion_address: completion,
        completion_value: 0x1122_3344,
        count: 1,
        data_address: address,
        data: &[0x0a, 0x0b, 0x0c, 0x0d],
    }
}

fn deliver(script: &mut Script, lent: usize, frame: &[u8], answer: &str) {
    script.line(&format!("deliver {lent} {}", hex(frame)), answer);
}

/// A table of two cards, whose regions touch in a memory of 100 bytes.
fn table(script: &mut Script) {
    script.lines(&[
        ("table 0 100", "R 13"),
        ("register 2 60 40 100", "R 13"),
        ("tablestate", "own 0"),
        ("table 1 100", "ok"),
        ("tablestate", "own 1"),
        ("remove 2", "R 3"),
        ("take 2", "R 3"),
        ("register 0 60 40 100", "R 13"),
        ("register 2 60 0 100", "R 31"),
        ("register 2 61 40 100", "R 31"),
        ("register 2 18446744073709551615 2 100", "R 31"),
        ("register 2 60 40 99", "R 31"),
        ("register 2 60 40 100", "ok"),
        ("register 2 0 10 100", "R 30"),
        ("register 3 20 41 100", "R 29"),
        ("register 3 20 40 100", "ok"),
        ("tablestate", "own 1 [3 20 40] [2 60 40]"),
    ]);
    // Data ends with the region, and the completion starts with it.
    let mut memory = [0; 100];
    for (source, first) in [(2, 60), (3, 20)] {
        let frame = write_frame(1, source, 0, &[whole(0, 36, 0)]);
        let ack = hex(&ack_frame(source, 1, 0, 0, 1));
        deliver(script, 100, &frame, &format!("A 0 1 4 1 run 1 ack {ack}"));
        memory[first..first + 4].copy_from_slice(&[0x44, 0x33, 0x22, 0x11]);
        memory[first + 36..first + 40].copy_from_slice(&[0x0a, 0x0b, 0x0c, 0x0d]);
        script.line("memory", &digest(&memory));
        deliver(script, 100, &frame, &format!("G 0 run 1 ack {ack}"));
        let past = write_frame(1, source, 1, &[whole(1, 37, 0)]);
        deliver(script, 100, &past, "R 11 place 0");
        let past = write_frame(1, source, 1, &[whole(1, 0, 37)]);
        deliver(script, 100, &past, "R 12 place 0");
        deliver(script, 100, &write_frame(1, source, 1, &[]), "N");
    }
    // A memory that ends with the region is enough, and one byte less is not.
    let frame = write_frame(1, 3, 1, &[whole(1, 36, 0)]);
    let ack = hex(&ack_frame(3, 1, 0, 1, 1));
    deliver(script, 59, &frame, "R 31 place 0");
    deliver(script, 59, &frame[..frame.len() - 1], "R 31 place 0");
    deliver(script, 59, &frame[..9], "R 1 place 0");
    deliver(script, 60, &frame, &format!("A 1 1 4 1 run 1 ack {ack}"));
    deliver(script, 99, &write_frame(1, 2, 1, &[]), "R 31 place 0");
    deliver(script, 0, &write_frame(1, 4, 1, &[]), "R 3 place 0");
    deliver(script, 100, &write_frame(2, 3, 1, &[]), "R 3 place 0");
    script.line("memory", &digest(&memory));
    let pair = "own 1 peer 3 next 2 marks 0000000000000000 lowest 2 closed 00000000";
    script.lines(&[
        ("take 4", "R 3"),
        ("take 3", "ok"),
        ("state", pair),
        ("adopt 0 20 100", "R 30"),
        ("remove 3", "ok"),
        ("remove 3", "R 3"),
        ("adopt 0 0 100", "R 31"),
        ("adopt 50 11 100", "R 29"),
        ("adopt 0 40 100", "ok"),
        ("tablestate", "own 1 [3 0 40] [2 60 40]"),
    ]);
    deliver(script, 40, &frame, &format!("G 1 run 1 ack {ack}"));
    let other = Host::starting_at(9, 5, 0, 0).text();
    script.line(&format!("restore {}", hex(other.as_bytes())), "ok");
    script.line("adopt 40 10 100", "R 13");
}

/// Fourteen more cards of one byte each, and one more in place of a removed one.
fn full_table(script: &mut Script) {
    let mut cards = "own 1 [3 0 40]".to_string();
    for source in 4..18 {
        let first = 36 + source;
        script.line(&format!("register {source} {first} 1 100"), "ok");
        cards += &format!(" [{source} {first} 1]");
    }
    cards += " [2 60 40]";
    let pair = Host::starting_at(1, 40, 7, 9).text();
    script.lines(&[
        ("tablestate", &cards),
        ("register 40 54 6 100", "R 28"),
        ("register 40 53 6 100", "R 29"),
        ("register 40 60 41 100", "R 31"),
        ("register 17 60 41 100", "R 30"),
        ("register 0 60 41 100", "R 13"),
        (&format!("restore {}", hex(pair.as_bytes())), "ok"),
        ("adopt 54 6 100", "R 28"),
        ("remove 4", "ok"),
        ("adopt 54 6 100", "ok"),
        ("take 40", "ok"),
        (
            "state",
            "own 1 peer 40 next 7 marks 0000000000000000 lowest 9 closed 00000000",
        ),
        ("register 4 40 1 100", "R 28"),
        ("remove 17", "ok"),
        ("register 4 40 1 100", "ok"),
        ("table 2 1", "ok"),
        ("tablestate", "own 2"),
        ("memory", &digest(&[0])),
    ]);
}

/// First readings, differences, a counter that wraps, and blocks that change nothing.
fn ledger(script: &mut Script) {
    script.lines(&[
        // Nothing was charged before.
        ("total 0", "0 0"),
        ("total 1023", "0 0"),
        ("ledger", "ok"),
        ("block -", "ok"),
        // Subscriber 7 is read first, at 2^32 - 6.
        ("block 07000000faffffff", "ok"),
        ("total 7", "0 0"),
        // Its counter wraps and stands at 10; subscriber 1,023 is read first, at 256.
        ("block 070000000a000000ff03000000010000", "ok"),
        ("total 7", "16 16"),
        ("total 1023", "0 16"),
        // 7 goes to 12 and to 12 again, 1,023 to 65,536.
        (
            "block 070000000c000000ff03000000000100070000000c000000",
            "ok",
        ),
        ("total 7", "18 65298"),
        ("total 1023", "65280 65298"),
        // One count back is all counts but one forward.
        ("block 070000000b000000", "ok"),
        ("total 7", "4294967313 4295032593"),
        // Refused: 7 bytes and 9, subscriber 1,024, and one whose high byte is set.
        ("block 070000000b0000", "R 40"),
        ("block 070000000b00000000", "R 40"),
        ("block 0004000000000000", "R 41"),
        ("block 070000000c0000000004000000000000", "R 41"),
        ("block 0700000100000000", "R 41"),
        // The size is looked at first.
        ("block 000400000000000000", "R 40"),
        ("total 7", "4294967313 4295032593"),
        ("total 1022", "0 4295032593"),
        ("ledger", "ok"),
        ("total 7", "0 0"),
        ("block 0700000005000000", "ok"),
        ("total 7", "0 0"),
    ]);
}

fn questions(script: &mut Script) {
    let whole = hex(&WHOLE_CASE);
    script.lines(&[
        (&format!("layout {whole}"), "L 1 2 0 0 0 1 1 4"),
        (&format!("layout {}", &whole[..74]), "R 5"),
        ("layout ffff0000050006000700", "L 65535 0 5 6 7 0 0 0"),
        ("layout 01020304050607080902", "R 4"),
        ("layout 010203040506070809", "R 1"),
    ]);
    let classes = [
        (0, "none"),
        (1, "wire"),
        (6, "wire"),
        (7, "message"),
        (12, "message"),
        (13, "caller"),
        (14, "caller"),
        (15, "none"),
        (19, "none"),
        (20, "card"),
        (27, "card"),
        (28, "none"),
        (40, "none"),
        (42, "none"),
        (u32::MAX, "none"),
    ];
    for (number, class) in classes {
        script.line(&format!("class {number}"), class);
    }
}

fn no_form(script: &mut Script) {
    for line in [
        "",
        "seal ",
        " seal",
        "Seal",
        "show",
        "show 65536",
        "show -1",
        "open 65536 0 0",
        "open 0 0",
        "add 0 0 0",
        "add 0 0 0g",
        "add  0 0",
        "card 1 2 34 2176",
        "card 1 2 34 2176 2",
        "card 1 2 34 600001 0",
        "host 1 2 1048577",
        "table 1",
        "table 1 1048577",
        "register 2 0 1",
        "register 65536 0 1 1",
        "register 2 0 18446744073709551616 1",
        "remove",
        "deliver 1",
        "deliver 1 0",
        "take 65536",
        "adopt 0 1",
        "tablestate 1",
        "ledger 1",
        "block",
        "block 0",
        "block 0g",
        "total",
        "total 1024",
        "class 4294967296",
        "layout",
        "hello",
    ] {
        script.line(line, "?");
    }
}

/// Both ends of the count, and numbers of more bits than there are marks, or of none.
fn marks(script: &mut Script) {
    script.lines(&[
        ("marks 0", "0"),
        ("marks 1", "1"),
        ("marks 11", "2"),
        ("marks 9223372036854775807", "63"),
        ("marks 18446744073709551615", "64"),
        ("marks 18446744073709551614", "0"),
        ("marks 18446744073709551616", "?"),
        ("marks -1", "?"),
    ]);
}
