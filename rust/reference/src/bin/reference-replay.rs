//! The independent replay program: standard input to standard output, with nothing
//! of the proved library in it.

#![forbid(unsafe_code)]

use reference::replay;
use std::io::{self, BufWriter};

fn main() -> io::Result<()> {
    replay::run(io::stdin().lock(), BufWriter::new(io::stdout().lock()))
}
