//! Times the replay program named first against the plain one beside this program, in
//! turns, on files of accepted frames, start of the process and all, and prints the time
//! of a line.

#![forbid(unsafe_code)]

use bench::replay::MEMORY;
use bench::shapes::{REPLAY_SHAPES, Shape};
use std::env;
use std::fmt::Write;
use std::fs::{self, File};
use std::io;
use std::path::{Path, PathBuf};
use std::process::{Command, Stdio};
use std::time::Instant;

/// Lines of a file: every frame number once.
const LINES: usize = 65_536;
/// Bytes of a frame.
const FRAME: usize = 1_500;
/// Turns that are counted: a million lines of each shape.
const TURNS: usize = 16;

fn main() -> io::Result<()> {
    let plain = env::current_exe()?.with_file_name("plain-replay");
    let Some(proved) = env::args_os().nth(1).map(PathBuf::from) else {
        eprintln!("bench-replay: name the replay program to time");
        std::process::exit(2);
    };
    println!("{LINES} lines a run, {TURNS} runs, frames of {FRAME} bytes");
    println!("ns a line: best, median");
    let file = env::temp_dir().join(format!("bench-replay-{}", std::process::id()));
    for shape in REPLAY_SHAPES {
        fs::write(&file, lines(&shape))?;
        let timed = time(shape, &file, [&plain, &proved]);
        fs::remove_file(&file)?;
        timed?;
    }
    Ok(())
}

/// The frames of a shape, one a line.
fn lines(shape: &Shape) -> String {
    let mut text = String::with_capacity(LINES * (2 * FRAME + 1));
    for frame in shape.frames(LINES, MEMORY).chunks(FRAME) {
        for byte in frame {
            write!(text, "{byte:02x}").expect("memory takes any text");
        }
        text.push('\n');
    }
    text
}

fn time(shape: Shape, file: &Path, programs: [&Path; 2]) -> io::Result<()> {
    let mut times = [Vec::new(), Vec::new()];
    // The first turn warms up and is not counted.
    for turn in 0..=TURNS {
        let mut outputs = Vec::new();
        for (program, times) in programs.iter().zip(&mut times) {
            let start = Instant::now();
            let output = Command::new(program)
                .stdin(File::open(file)?)
                .stderr(Stdio::inherit())
                .output()?;
            let time = start.elapsed().as_nanos() as f64 / LINES as f64;
            if turn > 0 {
                times.push(time);
            }
            assert!(output.status.success(), "{}", program.display());
            outputs.push(output.stdout);
        }
        assert!(outputs[0] == outputs[1], "the programs differ");
        let lines = outputs[0].split(|byte| *byte == b'\n');
        let accepted = lines.filter(|line| line.starts_with(b"A ")).count();
        assert_eq!(accepted, LINES, "not every line was accepted");
    }
    let mut results = [(0.0, 0.0); 2];
    for ((times, name), result) in times.iter_mut().zip(["plain", "proved"]).zip(&mut results) {
        times.sort_by(f64::total_cmp);
        *result = (times[0], times[TURNS / 2]);
        println!(
            "  {:<12} {name:<7} {:8.1} {:8.1}",
            shape.name, result.0, result.1
        );
    }
    println!(
        "  {:<12} ratio   {:8.2} {:8.2}",
        shape.name,
        results[1].0 / results[0].0,
        results[1].1 / results[0].1
    );
    Ok(())
}
