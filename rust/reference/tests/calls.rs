//! The stored script for the program `calls`, which `calls-sample` makes: the independent
//! program gives the stored answers, and they have every refusal and every kind of answer
//! among them. Random scripts have them too: `LW_SEED` chooses the first seed of those
//! about tables and ledgers and `LW_SCRIPTS` their number.

use reference::calls::Program;
use reference::ends::Sound;
use reference::script::{Ledgers, Tables, Wild};
use reference::settings::{count_from_env, number_from_env};
use std::collections::BTreeMap;
use std::io::Write;
use std::process::{Command, Stdio};
use std::thread;

const STDIN: &[u8] = include_bytes!("../../../c/calls.stdin");
const STDOUT: &str = include_str!("../../../c/calls.stdout");

/// What the program writes for this input.
fn output_of(input: &'static [u8]) -> String {
    let mut child = Command::new(env!("CARGO_BIN_EXE_reference-calls"))
        .stdin(Stdio::piped())
        .stdout(Stdio::piped())
        .spawn()
        .expect("the program starts");
    let mut stdin = child.stdin.take().expect("it is piped");
    let writer = thread::spawn(move || stdin.write_all(input));
    let output = child.wait_with_output().expect("a child can be waited for");
    writer
        .join()
        .expect("the writer does not panic")
        .expect("the program reads all");
    assert!(
        output.status.success(),
        "the program ended with {}",
        output.status
    );
    String::from_utf8(output.stdout).expect("the program writes plain letters and digits")
}

#[test]
fn the_program_gives_the_stored_answers() {
    assert_eq!(output_of(STDIN), STDOUT);
    assert_eq!(output_of(b""), "");
}

#[test]
fn the_stored_script_has_every_refusal_and_answer() {
    let lines = STDIN.split(|byte| *byte == b'\n');
    let asked: Vec<(&[u8], &str)> = lines
        .map(|line| line.split(|byte| *byte == b' ').next().unwrap_or(b""))
        .zip(STDOUT.lines())
        .collect();
    assert_eq!(asked.len(), STDOUT.lines().count());
    let has = |word: &str, test: &dyn Fn(&str) -> bool| {
        let mut asked = asked.iter();
        asked.any(|(name, answer)| *name == word.as_bytes() && test(answer))
    };
    let host: Vec<(&str, u8)> = (1..=12).map(|number| ("receive", number)).collect();
    let others = [
        ("card", 13),
        ("card", 26),
        ("host", 13),
        ("open", 20),
        ("add", 21),
        ("add", 22),
        ("add", 23),
        ("add", 26),
        ("add", 27),
        ("seal", 24),
        ("seal", 26),
        ("show", 25),
        ("show", 26),
        ("choose", 25),
        ("choose", 26),
        ("read", 1),
        ("read", 2),
        ("read", 3),
        ("read", 4),
        ("read", 5),
        ("layout", 1),
        ("layout", 4),
        ("layout", 5),
        ("restore", 15),
        ("table", 13),
        ("register", 13),
        ("register", 28),
        ("register", 29),
        ("register", 30),
        ("register", 31),
        ("adopt", 13),
        ("adopt", 28),
        ("adopt", 29),
        ("adopt", 30),
        ("adopt", 31),
        ("remove", 3),
        ("take", 3),
        ("deliver", 1),
        ("deliver", 3),
        ("deliver", 11),
        ("deliver", 12),
        ("deliver", 31),
    ];
    for (word, number) in host.into_iter().chain(others) {
        let refused = match word {
            "receive" | "deliver" => has(word, &|answer| {
                answer.starts_with(&format!("R {number} place "))
            }),
            _ => has(word, &|answer| answer == format!("R {number}")),
        };
        assert!(refused, "{word} with refusal {number}");
    }
    for (word, answer) in [
        ("card", "ok"),
        ("host", "ok"),
        ("open", "t "),
        ("add", "ok"),
        ("seal", "f "),
        ("read", "ok"),
        ("show", "slot "),
        ("choose", "slot "),
        ("choose", "lent "),
        ("receive", "A "),
        ("receive", "G "),
        ("receive", "N"),
        ("layout", "L "),
        ("class", "wire"),
        ("class", "message"),
        ("class", "caller"),
        ("class", "card"),
        ("class", "none"),
        ("marks", "0"),
        ("marks", "64"),
        ("slots", ""),
        ("memory", ""),
        ("state", "own "),
        ("store", "n "),
        ("store", "R 13 "),
        ("store", "R 19 "),
        ("restore", "ok"),
        ("table", "ok"),
        ("register", "ok"),
        ("remove", "ok"),
        ("take", "ok"),
        ("adopt", "ok"),
        ("deliver", "A "),
        ("deliver", "G "),
        ("deliver", "N"),
        ("tablestate", "own "),
        ("table", "?"),
        ("register", "?"),
        ("remove", "?"),
        ("deliver", "?"),
        ("take", "?"),
        ("adopt", "?"),
        ("tablestate", "?"),
        ("hello", "?"),
    ] {
        let answered = has(word, &|got| got.starts_with(answer));
        assert!(answered, "{word} with {answer}");
    }
}

/// The first word of a line with what its answer begins with.
fn kind(line: &[u8], answer: &str) -> (String, String) {
    let word = line.split(|byte| *byte == b' ').next().unwrap_or(b"");
    let mut words = answer.split(' ');
    let first = words.next().unwrap_or("");
    let answer = match (word, first) {
        (b"slots" | b"memory", _) => "digest".to_string(),
        (b"total", number) if number != "?" => "total".to_string(),
        (_, "R") => format!("R {}", words.next().unwrap_or("")),
        _ => first.to_string(),
    };
    (String::from_utf8_lossy(word).into_owned(), answer)
}

/// Without each of these a comparison by such lines would be one about next to nothing.
#[test]
fn lines_of_any_kind_meet_every_answer() {
    let mut met: BTreeMap<(String, String), u64> = BTreeMap::new();
    for seed in 0..4 {
        let mut wild = Wild::new(seed);
        for _ in 0..12_000 {
            let (line, answer) = wild.next_line();
            *met.entry(kind(&line, &answer)).or_default() += 1;
        }
    }
    let refusals: [(&str, &[u8]); 12] = [
        ("card", &[13, 26]),
        ("host", &[13]),
        ("open", &[20]),
        ("add", &[21, 22, 23, 26, 27]),
        ("seal", &[24, 26]),
        ("show", &[25, 26]),
        ("choose", &[25, 26]),
        ("read", &[1, 2, 3, 4, 5]),
        ("receive", &[1, 2, 3, 4, 5, 6, 7, 8, 9, 10, 11, 12]),
        ("layout", &[1, 2, 4, 5]),
        ("store", &[13, 19]),
        ("restore", &[15]),
    ];
    let refused = refusals
        .iter()
        .flat_map(|(word, numbers)| numbers.iter().map(move |n| (*word, format!("R {n}"))));
    let answers = [
        "card ok",
        "host ok",
        "open t",
        "add ok",
        "seal f",
        "show slot",
        "choose slot",
        "choose lent",
        "read ok",
        "receive A",
        "receive G",
        "receive N",
        "layout L",
        "class wire",
        "class message",
        "class caller",
        "class card",
        "class none",
        "slots digest",
        "memory digest",
        "state own",
        "store n",
        "restore ok",
        "show ?",
        "add ?",
        "card ?",
        "receive ?",
    ];
    let answered = answers.map(|pair| pair.split_once(' ').unwrap_or((pair, "")));
    let answered = answered.map(|(word, answer)| (word, answer.to_string()));
    for (word, answer) in refused.chain(answered) {
        let times = met.get(&(word.to_string(), answer.clone())).copied();
        assert!(times.unwrap_or(0) >= 5, "{word} with {answer}: {times:?}");
    }
}

/// The same of lines about a table.
#[test]
fn lines_about_tables_meet_every_answer() {
    let first = number_from_env("LW_SEED", 1);
    let scripts = count_from_env("LW_SCRIPTS", 4);
    let mut met: BTreeMap<(String, String), u64> = BTreeMap::new();
    let mut full = 0;
    for seed in first..first + scripts {
        let mut tables = Tables::new(seed);
        for _ in 0..12_000 {
            let (line, answer) = tables.next_line();
            *met.entry(kind(&line, &answer)).or_default() += 1;
            full += u64::from(line == b"tablestate" && answer.matches('[').count() == 16);
        }
    }
    println!("seed {first}, {scripts} scripts: {met:?}, {full} full tables told");
    let refusals: [(&str, &[u8]); 6] = [
        ("table", &[13]),
        ("register", &[13, 30, 31, 29, 28]),
        ("remove", &[3]),
        ("take", &[3]),
        ("adopt", &[13, 30, 31, 29, 28]),
        ("deliver", &[1, 2, 3, 31, 4, 5, 6, 7, 8, 9, 10, 11, 12]),
    ];
    let refused = refusals
        .iter()
        .flat_map(|(word, numbers)| numbers.iter().map(move |n| (*word, format!("R {n}"))));
    let answered = [
        "table ok",
        "register ok",
        "remove ok",
        "take ok",
        "adopt ok",
        "deliver A",
        "deliver G",
        "deliver N",
        "receive A",
        "tablestate own",
        "state own",
        "memory digest",
        "register ?",
        "deliver ?",
        "adopt ?",
    ];
    let answered = answered.map(|pair| pair.split_once(' ').unwrap_or((pair, "")));
    let answered = answered.map(|(word, answer)| (word, answer.to_string()));
    for (word, answer) in refused.chain(answered) {
        let times = met.get(&(word.to_string(), answer.clone())).copied();
        assert!(times.unwrap_or(0) >= 5, "{word} with {answer}: {times:?}");
    }
    assert!(full > 0, "no full table was told");
}

/// The same of lines about a ledger, from an empty one and from one that is nearly full.
#[test]
fn lines_about_ledgers_meet_every_answer() {
    let first = number_from_env("LW_SEED", 1);
    let scripts = count_from_env("LW_SCRIPTS", 4);
    let mut met: BTreeMap<(String, String), u64> = BTreeMap::new();
    let mut full = 0;
    for seed in first..first + scripts {
        let nearly_full = (0..40).map(|part| (Ledgers::nearly_full(40 * seed + part), 300));
        for (mut ledgers, lines) in nearly_full.chain([(Ledgers::new(seed), 12_000)]) {
            let mut program = Program::starting_with(Sound, ledgers.start());
            for _ in 0..lines {
                let (line, answer) = ledgers.next_line();
                assert_eq!(program.line(&line), answer, "a script starts as it says");
                *met.entry(kind(&line, &answer)).or_default() += 1;
            }
            full += u64::from(program.ledger().sum() == u64::MAX);
        }
    }
    println!("seed {first}, {scripts} scripts: {met:?}, {full} full ledgers");
    for pair in [
        "ledger ok",
        "block ok",
        "block R 40",
        "block R 41",
        "block R 42",
        "total total",
        "class none",
        "ledger ?",
        "block ?",
        "total ?",
    ] {
        let (word, answer) = pair.split_once(' ').expect("a word and an answer");
        let times = met.get(&(word.to_string(), answer.to_string())).copied();
        assert!(times.unwrap_or(0) >= 5, "{word} with {answer}: {times:?}");
    }
    assert!(full > 0, "no ledger was filled to the last byte");
}
