//! The stored samples are those that the programs here make, with every answer worked out
//! by hand: what is changed in one place alone would be a sample of nothing.

use std::fs;
use std::path::{Path, PathBuf};
use std::process::{Command, Stdio};

/// The folder that a program has filled.
fn filled_by(program: &str, name: &str) -> PathBuf {
    let folder = Path::new(env!("CARGO_TARGET_TMPDIR")).join(name);
    let status = Command::new(program)
        .arg(&folder)
        .stdout(Stdio::null())
        .status()
        .expect("the program starts");
    assert!(status.success(), "the program ended with {status}");
    folder
}

/// Compares a file that was made with the one that is stored.
fn assert_stored(made: &Path, stored: &[u8]) {
    let made_bytes = fs::read(made).expect("it was made");
    assert!(
        !stored.is_empty() && made_bytes == stored,
        "{}",
        made.display()
    );
}

#[test]
fn the_script_of_calls() {
    let folder = filled_by(env!("CARGO_BIN_EXE_calls-sample"), "calls-sample");
    let stored = include_bytes!("../../../c/calls.stdin");
    assert_stored(&folder.join("calls.stdin"), stored);
    let stored = include_bytes!("../../../c/calls.stdout");
    assert_stored(&folder.join("calls.stdout"), stored);
}

#[test]
fn the_sample_of_the_replay() {
    let folder = filled_by(env!("CARGO_BIN_EXE_sample"), "sample");
    let stored = include_bytes!("../../../crates/replay/stdin");
    assert_stored(&folder.join("stdin"), stored);
    let stored = include_bytes!("../../../crates/replay/stdout");
    assert_stored(&folder.join("stdout"), stored);
}
