//! The independent program for calls: standard input to standard output, with nothing
//! of the proved library in it.

#![forbid(unsafe_code)]

use reference::calls;
use reference::ends::Sound;
use std::io::{self, BufWriter};

fn main() -> io::Result<()> {
    let output = BufWriter::new(io::stdout().lock());
    calls::run(Sound, io::stdin().lock(), output)
}
