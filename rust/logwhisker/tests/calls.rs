//! Runs the C program `calls`, which is built over the installed header, on scripts and
//! compares every answer with the independent one: both ends' answers, a table's, a ledger's,
//! the frames handed out with their place in the slots, and digests of slots and memory.
//! `LW_SEED` and `LW_SCRIPTS` choose the first seed and the number of scripts of each kind,
//! `LW_CALLS` another program.

mod programs;

use reference::calls;
use reference::demand::Care;
use reference::ends::{Sound, Start};
use reference::faults::{
    Fault, Faulty, FaultyLedgers, FaultyTables, FoundBy, LedgerFault, TableFault,
};
use reference::rng::Rng;
use reference::script::{Ledgers, Tables, Wild, of_list};
use reference::settings::{count_from_env, number_from_env};
use reference::simulator::{Profile, come_round, simulate};
use std::collections::BTreeSet;
use std::io::{Read, Write};
use std::thread;

const STDIN: &[u8] = include_bytes!("../../../c/calls.stdin");
const STDOUT: &str = include_str!("../../../c/calls.stdout");
const WILD_LINES: usize = 8_000;
const LIST_CALLS: usize = 600;
const TABLE_LINES: usize = 6_000;
const LEDGER_LINES: usize = 4_000;
const LONG_CALLS: usize = 400_000;
/// The longest line that is read.
const LONGEST: usize = 200_000;

fn seeds() -> std::ops::Range<u64> {
    let first = number_from_env("LW_SEED", 1);
    first..first + count_from_env("LW_SCRIPTS", 24)
}

/// What the program writes for this input, handed to it in pieces of this size.
fn output_in_pieces(input: &[u8], piece: usize) -> String {
    let (mut child, mut stdin, mut stdout) = programs::start("calls");
    let mut output = Vec::new();
    thread::scope(|scope| {
        let writer = scope.spawn(move || input.chunks(piece).try_for_each(|p| stdin.write_all(p)));
        stdout.read_to_end(&mut output).expect("a pipe can be read");
        let written = writer.join().expect("the writer does not panic");
        written.expect("the program reads all");
    });
    let status = child.wait().expect("a child can be waited for");
    assert!(status.success(), "the program ended with {status}");
    String::from_utf8(output).expect("the program writes plain letters and digits")
}

fn output_of(input: &[u8]) -> String {
    output_in_pieces(input, 1 << 16)
}

/// Compares the program with the independent one, and gives what both wrote.
fn assert_same(input: &[u8]) -> String {
    let got = output_of(input);
    let expected = calls::output(Sound, input);
    if got != expected {
        let mut answers = got.lines().zip(expected.lines());
        let index = answers.position(|(a, b)| a != b);
        let index = index.unwrap_or(got.lines().count().min(expected.lines().count()));
        let line = input.split(|byte| *byte == b'\n').nth(index);
        panic!(
            "line {index} is answered {:?} instead of {:?}: {}",
            got.lines().nth(index),
            expected.lines().nth(index),
            line.unwrap_or(b"").escape_ascii()
        );
    }
    got
}

fn wild(seed: u64) -> Vec<u8> {
    Wild::new(seed).text(WILD_LINES)
}

fn tables(seed: u64) -> Vec<u8> {
    Tables::new(seed).text(TABLE_LINES)
}

fn ledgers(seed: u64) -> Vec<u8> {
    Ledgers::new(seed).text(LEDGER_LINES)
}

/// A list of demand 3 from fresh ends, with digests of slots and memory in between.
fn list(seed: u64) -> Vec<u8> {
    let profile = Profile {
        start: Start::default(),
        ..Profile::any(&mut Rng::new(seed))
    };
    let run = simulate(&Sound, seed, profile, LIST_CALLS, true, Care::LongList);
    of_list(&run.setting, &run.calls, 5).into_bytes()
}

/// One in which a transaction stays in the window while all frame numbers wrap.
fn round() -> Vec<u8> {
    let (setting, calls) = come_round();
    of_list(&setting, &calls, 1_000).into_bytes()
}

#[test]
fn stored_script() {
    assert_eq!(output_of(STDIN), STDOUT);
}

#[test]
fn lines_of_any_kind() {
    let mut met = BTreeSet::new();
    for seed in seeds() {
        met.extend(assert_same(&wild(seed)).lines().map(beginning_of));
    }
    // Without these an agreement could be one about next to nothing. 14 is the replay's.
    let refusals = (1..=13).chain([15, 19]).chain(20..=27);
    let refusals = refusals.map(|number| format!("R {number}"));
    let others = [
        "?", "ok", "t", "f", "slot", "lent", "A", "G", "N", "L", "own", "n",
    ];
    let wanted = refusals.chain(others.map(String::from));
    let missed: Vec<String> = wanted.filter(|wanted| !met.contains(wanted)).collect();
    assert!(missed.is_empty(), "not met: {missed:?}");
}

/// What kind of answer a line is: its first word, and of a refusal the number too.
fn beginning_of(line: &str) -> String {
    let words = if line.starts_with('R') { 2 } else { 1 };
    let words: Vec<&str> = line.split(' ').take(words).collect();
    words.join(" ")
}

/// Each line of a script with its answer.
fn answered<'a>(script: &'a [u8], answers: &'a str) -> impl Iterator<Item = (&'a str, &'a str)> {
    let script = str::from_utf8(script).expect("such scripts are letters and digits");
    script.lines().zip(answers.lines())
}

#[test]
fn lines_about_tables() {
    let mut met = BTreeSet::new();
    let mut fullest = 0;
    for seed in seeds() {
        let script = tables(seed);
        let answers = assert_same(&script);
        for (line, answer) in answered(&script, &answers) {
            let form = line.split(' ').next().unwrap_or("");
            met.insert(format!("{form}: {}", beginning_of(answer)));
            if form == "tablestate" {
                fullest = fullest.max(answer.matches('[').count());
            }
        }
    }
    // Without these an agreement could be one about next to nothing.
    let refused = |form: &str, numbers: &[u8]| -> Vec<String> {
        let lines = numbers.iter().map(|number| format!("{form}: R {number}"));
        lines.collect()
    };
    let registering = [13, 28, 29, 30, 31];
    let receiving = [1, 2, 3, 4, 5, 6, 7, 8, 9, 10, 11, 12, 31];
    let wanted = [
        refused("table", &[13]),
        refused("register", &registering),
        refused("adopt", &registering),
        refused("remove", &[3]),
        refused("take", &[3]),
        refused("deliver", &receiving),
        ["table", "register", "adopt", "remove", "take"]
            .map(|form| format!("{form}: ok"))
            .into(),
        ["A", "G", "N"]
            .map(|answer| format!("deliver: {answer}"))
            .into(),
    ];
    let wanted = wanted.into_iter().flatten();
    let missed: Vec<String> = wanted.filter(|wanted| !met.contains(wanted)).collect();
    assert!(missed.is_empty(), "not met: {missed:?}");
    assert_eq!(fullest, 16, "a table that is full is told of");
}

#[test]
fn lines_about_ledgers() {
    let mut met = BTreeSet::new();
    let mut largest = 0;
    for seed in seeds() {
        let script = ledgers(seed);
        let answers = assert_same(&script);
        for (line, answer) in answered(&script, &answers) {
            match line.split_once(' ') {
                Some(("total", _)) if answer != "?" => {
                    let (_, sum) = answer.split_once(' ').expect("a total and the sum");
                    largest = largest.max(sum.parse().expect("a sum of 64 bits"));
                }
                form => {
                    let form = form.map_or(line, |(form, _)| form);
                    met.insert(format!("{form}: {}", beginning_of(answer)));
                }
            }
        }
    }
    // 42 takes more bytes than lines can charge to an empty ledger.
    for wanted in ["ledger: ok", "block: ok", "block: R 40", "block: R 41"] {
        assert!(met.contains(wanted), "not met: {wanted}");
    }
    assert!(largest >= 1u64 << 32, "the largest sum is {largest}");
}

#[test]
fn lists_of_demand_3() {
    for seed in seeds() {
        assert_same(&list(seed));
    }
}

#[test]
fn numbers_that_come_round() {
    let answers = assert_same(&round());
    let last = |number: u32| answers.lines().any(|line| line == format!("f {number}"));
    assert!(last(65_535) && last(0));
    let seed = number_from_env("LW_SEED", 1);
    let run = simulate(
        &Sound,
        seed,
        Profile::long(66_000),
        LONG_CALLS,
        true,
        Care::LongList,
    );
    let answers = assert_same(of_list(&run.setting, &run.calls, 1_000).as_bytes());
    assert!(answers.lines().any(|line| line == "f 65535"));
}

#[test]
fn endings_and_long_lines() {
    for input in [
        &b""[..],
        b"\n",
        b"seal",
        b"seal\n",
        b"seal\r\n",
        b"\0\n\xff",
        b"\n\nseal\n\n",
        b"class 5",
    ] {
        assert_same(input);
    }
    for digits in [
        LONGEST - 8,
        LONGEST - 7,
        LONGEST - 6,
        LONGEST + 1,
        3 * LONGEST,
    ] {
        let mut input = b"layout ".to_vec();
        input.resize(7 + digits, b'0');
        assert_same(&input);
        input.extend_from_slice(b"\nclass 5\n");
        assert_same(&input);
    }
}

#[test]
fn byte_by_byte() {
    let script = &STDIN[..STDIN.len().min(4_000)];
    assert_eq!(output_in_pieces(script, 1), calls::output(Sound, script));
}

/// What demand 3 lets pass is told apart by the answers.
#[test]
fn faults_that_demand_3_lets_pass_show_in_the_answers() {
    let scripts: Vec<Vec<u8>> = (0..4)
        .map(wild)
        .chain((0..60).map(list))
        .chain([round()])
        .collect();
    let answers: Vec<String> = scripts.iter().map(|script| output_of(script)).collect();
    let passing = Fault::ALL
        .iter()
        .filter(|fault| fault.found_by() == FoundBy::Comparison);
    let mut tried = 0;
    for fault in passing {
        let ends = || Faulty(Some(*fault));
        let mut pairs = scripts.iter().zip(&answers);
        assert!(
            pairs.any(|(script, answer)| calls::output(ends(), script) != *answer),
            "{fault:?}"
        );
        tried += 1;
    }
    assert!(tried > 5);
}

/// What a table may get wrong is told apart by the answers.
#[test]
fn faults_of_tables_show_in_the_answers() {
    let scripts: Vec<Vec<u8>> = (0..8).map(tables).collect();
    let answers: Vec<String> = scripts.iter().map(|script| output_of(script)).collect();
    let shows = |fault: Option<TableFault>| {
        let mut pairs = scripts.iter().zip(&answers);
        pairs.any(|(script, answer)| calls::output(FaultyTables(fault), script) != *answer)
    };
    assert!(!shows(None), "without a fault the answers are the same");
    for fault in TableFault::ALL {
        assert!(shows(Some(*fault)), "{fault:?}");
    }
}

/// What a ledger may get wrong is told apart by the answers, but for what shows only in a
/// ledger that is nearly full.
#[test]
fn faults_of_ledgers_show_in_the_answers() {
    let scripts: Vec<Vec<u8>> = (0..8).map(ledgers).collect();
    let answers: Vec<String> = scripts.iter().map(|script| output_of(script)).collect();
    let shows = |fault: Option<LedgerFault>| {
        let mut pairs = scripts.iter().zip(&answers);
        pairs.any(|(script, answer)| calls::output(FaultyLedgers(fault), script) != *answer)
    };
    assert!(!shows(None), "without a fault the answers are the same");
    let hidden = LedgerFault::ALL
        .iter()
        .filter(|fault| !shows(Some(**fault)));
    let hidden: Vec<LedgerFault> = hidden.copied().collect();
    let nearly_full = [
        LedgerFault::SumWraps,
        LedgerFault::TotalWraps,
        LedgerFault::OverflowBeforeUnknown,
        LedgerFault::UnknownOfAllFirst,
        LedgerFault::TellsLastFault,
        LedgerFault::FullOneEarly,
    ];
    assert_eq!(hidden, nearly_full);
}
