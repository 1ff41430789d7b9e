//! Compares the plain fast replay's output with the reference's, on generated lines of
//! every kind and on endings.

use bench::replay::run;
use reference::replay;
use reference::traffic::{Kind, Traffic};

const LINES: usize = 50_000;

fn output(input: &[u8]) -> String {
    let mut output = Vec::new();
    run(input, &mut output).expect("memory is read and written without errors");
    String::from_utf8(output).expect("the program writes plain letters and digits")
}

#[test]
fn endings() {
    for input in ["", "\n", "0", "0\n", "00", "00\n\n", "\r\n", "0g\n01"] {
        assert_eq!(output(input.as_bytes()), replay::output(input.as_bytes()));
    }
}

#[test]
fn generated_lines() {
    for (seed, kind) in [(41, Kind::Network), (42, Kind::Guided)] {
        let input = Traffic::new(seed, kind).text(LINES);
        assert!(output(&input) == replay::output(&input), "seed {seed}");
    }
}
