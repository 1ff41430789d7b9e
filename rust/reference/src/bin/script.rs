//! Writes a script for the program `calls` to standard output: `script wild SEED LINES`
//! has lines of any kind, `script tables SEED LINES` lines about a table, `script ledgers
//! SEED LINES` lines about a ledger, `script list SEED CALLS` a short list of demand 3 and
//! `script long SEED CALLS` one in which all frame numbers wrap.

#![forbid(unsafe_code)]

use reference::demand::Care;
use reference::ends::{Sound, Start};
use reference::rng::Rng;
use reference::script::{self, Ledgers, Tables, Wild};
use reference::simulator::{Profile, simulate};
use std::env;
use std::io::{self, Write};

fn main() -> io::Result<()> {
    let arguments: Vec<String> = env::args().skip(1).collect();
    let [kind, seed, length] = &arguments[..] else {
        panic!("usage: script wild|tables|ledgers|list|long SEED LENGTH");
    };
    let seed: u64 = seed.parse().expect("the seed is a decimal number");
    let length: usize = length.parse().expect("the length is a decimal number");
    let text = match kind.as_str() {
        "wild" => Wild::new(seed).text(length),
        "tables" => Tables::new(seed).text(length),
        "ledgers" => Ledgers::new(seed).text(length),
        "list" => {
            let profile = Profile {
                start: Start::default(),
                ..Profile::any(&mut Rng::new(seed))
            };
            list(seed, profile, length, 1)
        }
        "long" => list(seed, Profile::long(66_000), length, 100),
        _ => panic!("a script is wild, tables, ledgers, list or long"),
    };
    io::stdout().lock().write_all(&text)
}

fn list(seed: u64, profile: Profile, calls: usize, between: usize) -> Vec<u8> {
    let run = simulate(&Sound, seed, profile, calls, true, Care::LongList);
    script::of_list(&run.setting, &run.calls, between).into_bytes()
}
