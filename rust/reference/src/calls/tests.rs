//! The program for calls by hand-worked cases: its forms, their limits and its answers.

use super::*;
use crate::cases::WHOLE_CASE;
use crate::ends::Sound;
use crate::ledger::Account;

fn answers(lines: &[&str]) -> Vec<String> {
    let output = output(Sound, lines.join("\n").as_bytes());
    output.lines().map(str::to_string).collect()
}

#[test]
fn before_any_opening() {
    let lines = [
        "slots",
        "memory",
        "state",
        "seal",
        "choose -",
        "open 0 0 0",
        "class 13",
        "marks 18446744073709551615",
    ];
    let state = "own 0 peer 0 next 0 marks 0000000000000000 lowest 0 closed 00000000";
    let empty = "cbf29ce484222325";
    let expected = [empty, empty, state, "R 26", "R 26", "t 0", "caller", "64"];
    assert_eq!(answers(&lines), expected);
}

/// The published digests of a few texts.
#[test]
fn digests() {
    assert_eq!(digest(b"a"), "af63dc4c8601ec8c");
    assert_eq!(digest(b"foobar"), "85944171f73967e8");
}

#[test]
fn whole_case() {
    let frame = hex(&WHOLE_CASE);
    let (show, receive) = (format!("slot 0 {frame}"), format!("receive {frame}"));
    let cases = [
        ("card 2 1 38 2432 0", "ok"),
        ("host 1 2 68", "ok"),
        ("open 1 64 287454020", "t 0"),
        ("add 0 0 0A0b0c0D", "ok"),
        ("seal", "f 0"),
        ("show 0", &show),
        (&receive, "A 0 1 4 1 run 1 ack 02000100000000000100"),
        (&receive, "G 0 run 1 ack 02000100000000000100"),
        ("read 02000100000000000100", "ok"),
        ("show 0", "R 25"),
    ];
    let (lines, expected): (Vec<&str>, Vec<&str>) = cases.into_iter().unzip();
    assert_eq!(answers(&lines), expected);
    let mut program = Program::new(Sound);
    for line in lines {
        program.line(line.as_bytes());
    }
    let mut memory = [0; 68];
    memory[..4].copy_from_slice(&[0x0a, 0x0b, 0x0c, 0x0d]);
    memory[64..].copy_from_slice(&[0x44, 0x33, 0x22, 0x11]);
    assert_eq!(program.line(b"memory"), digest(&memory));
    let mut slots = [0xa5; 2_432];
    slots[..38].copy_from_slice(&WHOLE_CASE);
    assert_eq!(program.line(b"slots"), digest(&slots));
}

#[test]
fn lines_of_no_form_change_nothing() {
    let mut program = Program::new(Sound);
    program.line(b"card 2 1 34 2176 0");
    program.line(b"host 1 2 100");
    let long = [b"receive ".to_vec(), vec![b'0'; LONGEST_LINE - 7]].concat();
    let bad: [&[u8]; 52] = [
        b"",
        b" ",
        b"seal ",
        b" seal",
        b"SEAL",
        b"seal\r",
        b"seal seal",
        b"open 0 0",
        b"open 0 0 0 0",
        b"open  0 0",
        b"open 65536 0 0",
        b"open 0 4294967296 0",
        b"open 0 0 4294967296",
        b"open -1 0 0",
        b"open +1 0 0",
        b"open 0x1 0 0",
        b"show",
        b"show 65536",
        b"show a",
        b"add 0 0 ",
        b"add 0 0 0",
        b"add 0 0 zz",
        b"add 0 0 --",
        b"card 65536 1 34 2176 0",
        b"card 2 1 34 600001 0",
        b"card 2 1 34 2176 2",
        b"card 2 1 34 2176",
        b"host 1 2 1048577",
        b"class 4294967296",
        b"marks 18446744073709551616",
        b"marks",
        b"marks -",
        b"table 1",
        b"table 1 1048577",
        b"register 2 0 1",
        b"register 65536 0 1 1",
        b"register 2 0 1 18446744073709551616",
        b"remove 65536",
        b"deliver 1",
        b"deliver 18446744073709551616 -",
        b"adopt 0 1",
        b"tablestate 1",
        b"ledger 1",
        b"block",
        b"block ",
        b"block 0",
        b"block - -",
        b"total",
        b"total 1024",
        b"total 4294967296",
        b"total 1 2",
        &long,
    ];
    for line in bad {
        assert_eq!(program.line(line), "?", "{}", line.escape_ascii());
    }
    assert_eq!(program.line(b"state"), answers(&["host 1 2 9", "state"])[1]);
    assert_eq!(
        program.line(b"open 00 0 0"),
        "t 0",
        "zeros in front are digits too"
    );
    // One character less is a line.
    assert_eq!(program.line(&long[..LONGEST_LINE]), "R 2 place 0");
}

#[test]
fn limits_of_buffers() {
    let lines = [
        "card 2 1 9000 576000 1",
        "card 2 1 9000 600000 0",
        "host 1 2 1048576",
        "host 1 0 5",
    ];
    assert_eq!(answers(&lines), ["ok", "R 26", "ok", "R 13"]);
}

#[test]
fn endings() {
    assert_eq!(output(Sound, b""), "");
    assert_eq!(output(Sound, b"\n"), "?\n");
    assert_eq!(output(Sound, b"seal"), "R 26\n");
    assert_eq!(output(Sound, b"seal\n\nseal\n"), "R 26\n?\nR 26\n");
}

#[test]
fn the_state_tells_marks_and_open_transactions() {
    let mut program = Program::new(Sound);
    program.line(b"host 1 2 100");
    let message = |transaction, count| wire::Message {
        transaction,
        completion_address: 4,
        completion_value: 5,
        count,
        data_address: 0,
        data: &[],
    };
    let frame = |number, messages: &[wire::Message]| {
        let frame = wire::write_frame(1, 2, number, messages);
        format!("receive {}", hex(&frame)).into_bytes()
    };
    let messages = [message(31, 9), message(2, 0), message(0, 3), message(31, 9)];
    program.line(&frame(63, &messages));
    program.line(&frame(1, &[message(1, 0)]));
    let expected = "own 1 peer 2 next 0 marks 8000000000000002 lowest 0 closed 00000006 \
                    [0 4 5 3 1 0] [31 4 5 9 2 0]";
    assert_eq!(program.line(b"state"), expected);
}

/// Two cards with the whole case's frame each, and every line about a table.
#[test]
fn a_table() {
    let frame = |source: u16| {
        let mut frame = WHOLE_CASE;
        frame[2..4].copy_from_slice(&source.to_le_bytes());
        hex(&frame)
    };
    let (two, three) = (frame(2), frame(3));
    let own = "own 1 peer 2 next 1 marks 0000000000000000 lowest 1 closed 00000000";
    let fresh = answers(&["state"]);
    let cases: [(&str, &str); 37] = [
        ("tablestate", "own 0"),
        ("register 2 0 1 1", "R 13"),
        ("remove 2", "R 3"),
        ("take 2", "R 3"),
        ("adopt 0 1 1", "R 13"),
        (&format!("deliver 0 {two}"), "R 3 place 0"),
        ("table 0 9", "R 13"),
        ("memory", &digest(&[0; 9])),
        ("table 1 200", "ok"),
        ("memory", &digest(&[0; 200])),
        ("register 2 100 68 200", "ok"),
        ("register 0 0 1 200", "R 13"),
        ("register 2 0 1 200", "R 30"),
        ("register 3 0 0 200", "R 31"),
        ("register 3 2 18446744073709551615 200", "R 31"),
        ("register 3 0 101 200", "R 29"),
        ("register 3 0 100 99", "R 31"),
        ("register 3 0 100 100", "ok"),
        ("tablestate", "own 1 [3 0 100] [2 100 68]"),
        (&format!("deliver 167 {two}"), "R 31 place 0"),
        (
            &format!("deliver 168 {two}"),
            "A 0 1 4 1 run 1 ack 02000100000000000100",
        ),
        (
            &format!("deliver 18446744073709551615 {two}"),
            "G 0 run 1 ack 02000100000000000100",
        ),
        (
            &format!("deliver 100 {three}"),
            "A 0 1 4 1 run 1 ack 03000100000000000100",
        ),
        ("deliver 200 -", "R 1 place 0"),
        ("take 4", "R 3"),
        ("state", &fresh[0]),
        ("take 2", "ok"),
        ("state", own),
        ("adopt 168 1 200", "R 30"),
        ("remove 2", "ok"),
        ("remove 2", "R 3"),
        (&format!("deliver 200 {two}"), "R 3 place 0"),
        ("adopt 99 68 200", "R 29"),
        ("adopt 101 68 200", "ok"),
        ("tablestate", "own 1 [3 0 100] [2 101 68]"),
        (
            &format!("deliver 200 {two}"),
            "G 0 run 1 ack 02000100000000000100",
        ),
        ("state", own),
    ];
    let (lines, expected): (Vec<&str>, Vec<&str>) = cases.into_iter().unzip();
    assert_eq!(answers(&lines), expected);
    let mut program = Program::new(Sound);
    for line in lines {
        program.line(line.as_bytes());
    }
    let mut memory = [0; 200];
    for first in [0, 100] {
        memory[first..first + 4].copy_from_slice(&[0x0a, 0x0b, 0x0c, 0x0d]);
        memory[first + 64..first + 68].copy_from_slice(&[0x44, 0x33, 0x22, 0x11]);
    }
    assert_eq!(program.memory(), memory);
    // The host's memory is the same one.
    assert_eq!(program.line(b"host 5 6 3"), "ok");
    assert_eq!(program.line(b"memory"), digest(&[0; 3]));
    let short = format!("deliver 200 {two}");
    assert_eq!(program.line(short.as_bytes()), "R 31 place 0");
    assert_eq!(program.line(b"adopt 169 1 200"), "R 13");
}

/// Sixteen cards of three bytes, and one more.
#[test]
fn a_full_table() {
    let mut program = Program::new(Sound);
    program.line(b"table 9 1000");
    for card in 0..16 {
        let line = format!("register {} {} 3 48", 20 + card, 3 * card);
        assert_eq!(program.line(line.as_bytes()), "ok");
    }
    for (line, answer) in [
        ("register 2 48 1 49", "R 28"),
        ("register 2 47 1 49", "R 29"),
        ("register 2 48 1 48", "R 31"),
        ("remove 35", "ok"),
        ("register 2 45 4 49", "ok"),
        ("restore 30", "R 15"),
        ("adopt 49 1 50", "R 13"),
        ("host 9 3 50", "ok"),
        ("adopt 49 1 50", "R 28"),
    ] {
        assert_eq!(program.line(line.as_bytes()), answer, "{line}");
    }
}

/// Every line about a ledger.
#[test]
fn a_ledger() {
    let cases = [
        ("total 0", "0 0"),
        ("total 1023", "0 0"),
        ("block -", "ok"),
        ("block 0000000005000000", "ok"),
        ("total 0", "0 0"),
        ("block 00000000040000", "R 40"),
        ("block 000000000400000000", "R 40"),
        ("block 0000000004000000FF03000007000000", "ok"),
        ("total 0", "4294967295 4294967295"),
        ("total 1023", "0 4294967295"),
        ("block ff03000009000000", "ok"),
        ("total 1023", "2 4294967297"),
        ("total 0", "4294967295 4294967297"),
        ("total 1", "0 4294967297"),
        ("block 00000000050000000004000000000000", "R 41"),
        ("total 0", "4294967295 4294967297"),
        ("class 40", "none"),
        ("class 41", "none"),
        ("class 42", "none"),
        ("ledger", "ok"),
        ("total 0", "0 0"),
        ("block 0000000007000000", "ok"),
        ("total 0", "0 0"),
    ];
    let (lines, expected): (Vec<&str>, Vec<&str>) = cases.into_iter().unzip();
    assert_eq!(answers(&lines), expected);
}

/// A ledger that is nearly full until it is opened anew.
#[test]
fn a_ledger_that_starts_as_told() {
    let account = Account {
        counter: 5,
        total: u64::MAX - 1,
    };
    let start = Ledger::starting_with(&[(2, account)], u64::MAX - 1);
    let mut program = Program::starting_with(Sound, &start);
    for (line, answer) in [
        ("total 2", "18446744073709551614 18446744073709551614"),
        ("block 0200000007000000", "R 42"),
        ("block 0200000006000000", "ok"),
        ("total 2", "18446744073709551615 18446744073709551615"),
        ("block 0200000007000000", "R 42"),
        ("block 0200000006000000", "ok"),
        ("ledger", "ok"),
        ("total 2", "0 0"),
        ("block 0200000007000000", "ok"),
    ] {
        assert_eq!(program.line(line.as_bytes()), answer, "{line}");
    }
}
