//! The plain replay: standard input to standard output.

#![forbid(unsafe_code)]

use bench::replay;
use std::io::{self, BufReader, BufWriter};

const PIECE: usize = 1 << 16;

fn main() -> io::Result<()> {
    let input = BufReader::with_capacity(PIECE, io::stdin().lock());
    replay::run(input, BufWriter::with_capacity(PIECE, io::stdout().lock()))
}
