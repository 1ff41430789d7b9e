//! Where the programs over the proved library are, and starting one with its streams piped.

use std::env;
use std::path::{Path, PathBuf};
use std::process::{Child, ChildStdin, ChildStdout, Command, Stdio};

/// The program of this name, or the one that `LW_NAME` says instead.
pub fn path(name: &str) -> PathBuf {
    if let Some(path) = env::var_os(format!("LW_{}", name.to_uppercase())) {
        return path.into();
    }
    let root = Path::new(env!("CARGO_MANIFEST_DIR")).join("../..");
    let (path, made_by) = match name {
        "calls" => (root.join("target/bin/calls"), "calls"),
        "replay_plain" => (program_of(&root, name), "replay PLAIN=1"),
        name => (program_of(&root, name), name),
    };
    assert!(
        path.is_file(),
        "{} is absent. Make it with `make {made_by}` in the root of the repository, then run this again.",
        path.display()
    );
    path
}

/// Where the program of a crate is, once it is proved and built.
fn program_of(root: &Path, name: &str) -> PathBuf {
    root.join("crates").join(name).join("out").join(name)
}

/// The program at work, and both ends of its pipes.
#[allow(dead_code)] // one of the tests that share this starts its programs by a shell
pub fn start(name: &str) -> (Child, ChildStdin, ChildStdout) {
    let path = path(name);
    let mut child = Command::new(&path)
        .stdin(Stdio::piped())
        .stdout(Stdio::piped())
        .spawn()
        .unwrap_or_else(|error| panic!("{}: {error}", path.display()));
    let stdin = child.stdin.take().expect("it is piped");
    let stdout = child.stdout.take().expect("it is piped");
    (child, stdin, stdout)
}
