//! The programs where their input or output ends, fails or waits. Whatever goes wrong
//! is said on standard error, nothing hangs, and the replay writes its totals only
//! where all was read and written, and so does its sister, which runs the plain host.
//! `LW_REPLAY`, `LW_REPLAY_PLAIN` and `LW_CALLS` choose other programs; what takes long
//! is left to `make soak`.

mod programs;

use reference::calls;
use reference::ends::Sound;
use reference::replay;
use reference::rng::Rng;
use reference::traffic::{Kind, Traffic};
use std::env;
use std::ffi::{CStr, c_char, c_int};
use std::fs::{self, File, OpenOptions};
use std::io::{BufReader, BufWriter, Read, Write};
use std::os::fd::FromRawFd;
use std::os::unix::process::ExitStatusExt;
use std::path::Path;
use std::process::{Child, Command, Output, Stdio};
use std::thread;
use std::time::{Duration, Instant};

const SIGPIPE: i32 = 13;
/// The replay and its sister.
const REPLAYS: [&str; 2] = ["replay", "replay_plain"];

/// The program under a shell that redirects its streams.
fn start(name: &str, redirections: &str) -> Child {
    Command::new("sh")
        .args(["-c", &format!("exec \"$0\" {redirections}")])
        .arg(programs::path(name))
        .stdin(Stdio::piped())
        .stdout(Stdio::piped())
        .stderr(Stdio::piped())
        .spawn()
        .expect("there is a shell")
}

/// All that the program writes for this input. It may stop reading early.
fn run(name: &str, redirections: &str, input: &[u8]) -> Output {
    let mut child = start(name, redirections);
    let mut stdin = child.stdin.take().expect("it is piped");
    let input = input.to_vec();
    let writer = thread::spawn(move || stdin.write_all(&input));
    let output = child.wait_with_output().expect("a child can be waited for");
    let _ = writer.join().expect("the writer does not panic");
    output
}

fn text(bytes: &[u8]) -> &str {
    std::str::from_utf8(bytes).expect("the programs write plain text")
}

/// Input of more than one buffer, with answers of more than one.
fn many_lines() -> Vec<u8> {
    b"\n".repeat(200_000)
}

#[test]
fn no_input() {
    for name in REPLAYS {
        let output = run(name, "</dev/null", b"");
        assert_eq!(text(&output.stdout), "T 0 0 0\n", "{name}");
        assert_eq!(text(&output.stderr), "", "{name}");
    }
    let output = run("calls", "</dev/null", b"");
    assert_eq!(text(&output.stdout), "");
    assert_eq!(text(&output.stderr), "");
}

#[test]
fn input_that_cannot_be_read() {
    // A replay says which call failed, the C program its own name.
    for (name, who) in REPLAYS
        .map(|name| (name, "read"))
        .into_iter()
        .chain([("calls", "calls")])
    {
        for (redirections, what) in [("<&-", "Bad file descriptor"), ("</", "Is a directory")] {
            let output = run(name, redirections, b"");
            assert_eq!(text(&output.stderr), format!("{who}: {what}\n"), "{name}");
            assert_eq!(text(&output.stdout), "", "{name} {redirections}");
        }
    }
}

/// The failure is said once, and nothing more is written behind it.
#[test]
fn output_that_cannot_be_written() {
    for (redirections, what) in [
        (">/dev/full", "No space left on device"),
        (">&-", "Bad file descriptor"),
    ] {
        for input in [b"".to_vec(), b"00\n".to_vec(), many_lines()] {
            for name in REPLAYS {
                let output = run(name, redirections, &input);
                let said = format!("write: {what}\n");
                assert_eq!(text(&output.stderr), said, "{name}: {} bytes", input.len());
            }
        }
        let output = run("calls", redirections, b"seal\n");
        assert_eq!(text(&output.stderr), format!("calls: {what}\n"));
    }
}

/// A file system that takes some bytes and then no more: what it has is a beginning of
/// the answers, and the failure is said.
#[test]
fn output_that_is_cut_off() {
    REPLAYS.into_iter().for_each(cut_off);
}

fn cut_off(name: &str) {
    let path = env::temp_dir().join(format!("logwhisker-streams-{}", std::process::id()));
    let input = many_lines();
    let whole = replay::output(&input);
    // `ulimit -f` counts in blocks of 512 bytes; the signal for a file that grows past it is ignored.
    let mut child = Command::new("sh")
        .args(["-c", "trap '' XFSZ; ulimit -f 256; exec \"$0\" >\"$1\""])
        .arg(programs::path(name))
        .arg(&path)
        .stdin(Stdio::piped())
        .stderr(Stdio::piped())
        .spawn()
        .expect("there is a shell");
    let mut stdin = child.stdin.take().expect("it is piped");
    let writer = thread::spawn(move || stdin.write_all(&input));
    let output = child.wait_with_output().expect("a child can be waited for");
    let _ = writer.join().expect("the writer does not panic");
    let got = fs::read(&path).expect("the file is there");
    fs::remove_file(&path).expect("the file is there");
    assert_eq!(text(&output.stderr), "write: File too large\n");
    assert_eq!(got.len(), 256 * 512);
    assert!(whole.as_bytes().starts_with(&got));
    assert!(!text(&got).contains('T'));
}

/// A reader that goes away ends the program: a replay by a write that fails, the C program
/// by the signal, as it ends others.
#[test]
fn reader_that_goes_away() {
    for name in REPLAYS.into_iter().chain(["calls"]) {
        let mut child = start(name, "");
        drop(child.stdout.take());
        let mut stdin = child.stdin.take().expect("it is piped");
        let writer = thread::spawn(move || stdin.write_all(&many_lines()));
        let began = Instant::now();
        let status = loop {
            if let Some(status) = child.try_wait().expect("a child can be waited for") {
                break status;
            }
            assert!(began.elapsed() < Duration::from_secs(60), "{name} hangs");
            thread::sleep(Duration::from_millis(5));
        };
        let _ = writer.join().expect("the writer does not panic");
        let mut said = String::new();
        let mut stderr = child.stderr.take().expect("it is piped");
        stderr.read_to_string(&mut said).expect("it can be read");
        if name == "calls" {
            assert_eq!(status.signal(), Some(SIGPIPE), "{name}: {status}");
        } else {
            assert!(status.success(), "{name}: {status}");
            assert_eq!(said, "write: Broken pipe\n", "{name}");
        }
    }
}

/// A reader that waits until both pipes are full loses nothing.
#[test]
fn reader_that_waits() {
    REPLAYS.into_iter().for_each(waited_for);
}

fn waited_for(name: &str) {
    let input = many_lines();
    let mut child = start(name, "");
    let mut stdin = child.stdin.take().expect("it is piped");
    let mut stdout = child.stdout.take().expect("it is piped");
    let whole = replay::output(&input);
    let writer = thread::spawn(move || stdin.write_all(&input));
    thread::sleep(Duration::from_millis(300));
    let mut got = Vec::new();
    let mut piece = [0; 4_096];
    loop {
        let n = stdout.read(&mut piece).expect("a pipe can be read");
        if n == 0 {
            break;
        }
        got.extend(&piece[..n]);
        thread::sleep(Duration::from_micros(200));
    }
    writer
        .join()
        .expect("the writer does not panic")
        .expect("all is read");
    assert_eq!(text(&got), whole);
    assert!(child.wait().expect("a child can be waited for").success());
}

/// Bytes of every kind, most of them no text.
#[test]
fn binary_input() {
    for seed in 0..8 {
        let input = Rng::new(seed).bytes(100_000);
        for name in REPLAYS {
            let output = run(name, "", &input);
            assert_eq!(
                text(&output.stdout),
                replay::output(&input),
                "{name}: seed {seed}"
            );
            assert_eq!(text(&output.stderr), "");
        }
        let output = run("calls", "", &input);
        assert_eq!(
            text(&output.stdout),
            calls::output(Sound, &input),
            "seed {seed}"
        );
        assert_eq!(text(&output.stderr), "");
    }
}

unsafe extern "C" {
    fn posix_openpt(flags: c_int) -> c_int;
    fn grantpt(fd: c_int) -> c_int;
    fn unlockpt(fd: c_int) -> c_int;
    fn ptsname(fd: c_int) -> *const c_char;
}

/// A file whose reading gives some text and then fails: the master of a terminal whose
/// other side was closed. The terminal puts a carriage return before each newline.
fn failing_after(sent: &[u8]) -> File {
    const READ_WRITE: c_int = 2;
    const NO_CONTROLLING: c_int = 0o400;
    // SAFETY: the calls take a number or the descriptor that the first one gave; the name is
    // copied before the next call.
    let (master, name) = unsafe {
        let fd = posix_openpt(READ_WRITE | NO_CONTROLLING);
        assert!(
            fd >= 0 && grantpt(fd) == 0 && unlockpt(fd) == 0,
            "no terminal to be had"
        );
        let name = ptsname(fd);
        assert!(!name.is_null(), "the terminal has no name");
        (File::from_raw_fd(fd), CStr::from_ptr(name).to_owned())
    };
    let name = name.to_str().expect("a device has a plain name");
    let mut slave = OpenOptions::new()
        .write(true)
        .open(name)
        .expect("the other side opens");
    slave.write_all(sent).expect("a terminal takes a few lines");
    master
}

/// Reading fails behind lines that were answered: their answers are written, a line that
/// had not ended has none, and there are no totals.
#[test]
fn input_that_fails_behind_answers() {
    for name in REPLAYS {
        let output = Command::new(programs::path(name))
            .stdin(failing_after(b"00\n00\n01"))
            .output()
            .expect("the program starts");
        assert_eq!(text(&output.stdout), "R 14\nR 14\n", "{name}");
        assert_eq!(text(&output.stderr), "read: Input/output error\n", "{name}");
    }
}

/// A file of 1 GB, from a file and through a pipe, against the independent program.
#[test]
#[ignore = "takes long and 1 GB of disk: make soak"]
fn a_gigabyte() {
    let folder = Path::new(env!("CARGO_MANIFEST_DIR")).join("../../target/soak");
    fs::create_dir_all(&folder).expect("a folder can be made");
    let path = folder.join("gigabyte");
    let mut lines = 0;
    let mut size: u64 = 0;
    let mut traffic = Traffic::new(1, Kind::Network);
    let long = [b"0".repeat(40_000_000), b"\n".to_vec()].concat();
    let mut file = BufWriter::new(File::create(&path).expect("a file can be made"));
    while size < 1 << 30 {
        let text = match lines % 40_000 {
            39_999 => long.clone(),
            _ => [traffic.next_line().text, b"\n"].concat(),
        };
        file.write_all(&text).expect("1 GB of disk");
        size += text.len() as u64;
        lines += 1;
    }
    file.into_inner()
        .expect("it is written")
        .sync_all()
        .expect("it is written");
    assert!(lines < 1_000_000);
    let mut expected = Vec::new();
    let input = BufReader::new(File::open(&path).expect("it is there"));
    replay::run(input, &mut expected).expect("it can be read");
    let from_file = Command::new(programs::path("replay"))
        .stdin(File::open(&path).expect("it is there"))
        .output();
    assert!(
        from_file.expect("the program starts").stdout == expected,
        "from a file"
    );
    let mut child = start("replay", "");
    let mut stdin = child.stdin.take().expect("it is piped");
    let writer = thread::spawn(move || {
        let mut file = File::open(&path).expect("it is there");
        std::io::copy(&mut file, &mut stdin).expect("all is read");
        fs::remove_file(&path).expect("it is there");
    });
    let output = child.wait_with_output().expect("a child can be waited for");
    writer.join().expect("the writer does not panic");
    assert!(output.stdout == expected, "through a pipe");
    println!("{lines} lines, {size} bytes: the same answers from a file and through a pipe");
}
