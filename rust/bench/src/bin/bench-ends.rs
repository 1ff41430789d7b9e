//! Times both ends, tables of sixteen cards and ledgers, the proved ones against plain ones,
//! each called for every frame, step or block across the same boundary, in turns in one
//! process, and prints the best and the median of the turns. The proved table is timed against proved
//! hosts on the same frames too. What all give is compared before anything is timed. Build it
//! with the profile `bench-release`, which leaves out the checks that tests run with. With an
//! argument it times only the lines whose name has it, such as `'table, d'`.

use bench::ends::{CardEnd, HostEnd, plain_marks};
use bench::ledgers::{BLOCK, KINDS, Kind, LedgerRun};
use bench::plain;
use bench::shapes::{CARDS, Cards, FIRST_SOURCE, MEMORY, SHAPES, Shape};
use bench::steps::{SLOTS, STEPS, Steps};
use bench::tables::{CHANGES, ChangeRun, Given, TableRun, Timed};
use std::env;
use std::hint::black_box;
use std::time::Instant;

/// Bytes of the frames of a call: more than caches hold, and a part that stays in one.
const FROM_MEMORY: usize = 96 << 20;
/// Frames of a call from the cache, and the turns for both.
const FROM_CACHE: usize = 512;
const TURNS_FROM_MEMORY: usize = 24;
const TURNS_FROM_CACHE: usize = 600;
const TURNS_OF_STEPS: usize = 400;
/// Blocks of readings that stay in a cache.
const BLOCKS_FROM_CACHE: usize = 64;
/// The shapes that a table gets from memory as well: the one of large frames, and d.
const FROM_MEMORY_AT_TABLES: [usize; 2] = [0, 3];
/// Frames of a table come in blocks of 32 for each of its cards.
const TABLE_BLOCK: usize = 32 * CARDS;

fn main() {
    if cfg!(debug_assertions) {
        eprintln!("built with checks: use --profile bench-release for times that count");
    }
    println!(
        "{:<42} {:>21} {:>21} {:>13}",
        "ns: best (median)", "plain", "proved", "ratio"
    );
    for shape in SHAPES {
        let arrivals = FROM_MEMORY / shape.size() / 32 * 32;
        let frames = shape.frames(arrivals, MEMORY);
        time_host(&shape, &frames, 1, TURNS_FROM_MEMORY, "memory");
        // Numbers must go on, so every call is a fresh host's and gets them from 0.
        let frames = shape.frames(FROM_CACHE, MEMORY);
        time_host(&shape, &frames, 8, TURNS_FROM_CACHE, "cache");
    }
    for (name, steps) in STEPS {
        time_card(name, steps);
    }
    time_marks();
    for kind in KINDS {
        time_ledger(kind, FROM_MEMORY / BLOCK, 1, TURNS_FROM_MEMORY, "memory");
        time_ledger(kind, BLOCKS_FROM_CACHE, 8, TURNS_FROM_CACHE, "cache");
    }
    println!(
        "{:<42} {:>21} {:>21} {:>21} {:>8} {:>8}",
        "ns: best (median)", "plain table", "proved table", "proved host", "to plain", "to host"
    );
    let all = [
        ("place 0", Cards::At(0)),
        ("place 15", Cards::At(CARDS - 1)),
        ("in turn", Cards::InTurn),
    ];
    for (index, shape) in SHAPES.iter().enumerate() {
        for (name, cards) in all {
            if FROM_MEMORY_AT_TABLES.contains(&index) {
                let arrivals = FROM_MEMORY / shape.size() / TABLE_BLOCK * TABLE_BLOCK;
                let numbers = [arrivals, 1, TURNS_FROM_MEMORY];
                time_table(shape, name, cards, numbers, "memory");
            }
            let numbers = [FROM_CACHE, 8, TURNS_FROM_CACHE];
            time_table(shape, name, cards, numbers, "cache");
        }
    }
    time_changes();
}

/// Whether a line is to be timed.
fn is_wanted(name: &str) -> bool {
    env::args().nth(1).is_none_or(|part| name.contains(&part))
}

/// Something to be timed.
type Turn<'a> = Box<dyn Timed + 'a>;

/// Lets the turns of all take place one after another, so many times, and gives the best and
/// the median time of each. `each` is how many frames or steps one turn has.
fn measure(
    name: &str,
    each: usize,
    turns: usize,
    expected: Option<u64>,
    timed: &mut [Turn],
) -> Vec<(f64, f64)> {
    let mut times = vec![Vec::with_capacity(turns); timed.len()];
    // The first turn warms up and is not counted.
    for turn in 0..=turns {
        let mut sums = Vec::with_capacity(timed.len());
        for (run, times) in timed.iter_mut().zip(&mut times) {
            run.ready();
            let start = Instant::now();
            sums.push(run.turn());
            let time = start.elapsed().as_nanos() as f64 / each as f64;
            if turn > 0 {
                times.push(time);
            }
        }
        let expected = expected.unwrap_or(sums[0]);
        assert!(sums.iter().all(|sum| *sum == expected), "{name}: {sums:?}");
    }
    times
        .into_iter()
        .map(|mut times| {
            times.sort_by(f64::total_cmp);
            (times[0], times[times.len() / 2])
        })
        .collect()
}

fn line_of(name: &str, results: &[(f64, f64)]) -> String {
    let mut line = format!("{name:<42}");
    for (best, median) in results {
        line += &format!(" {best:>10.1} ({median:>8.1})");
    }
    line
}

/// Measures, and prints a line with the ratio of the second to the first.
fn time(name: &str, each: usize, turns: usize, expected: Option<u64>, timed: &mut [Turn]) {
    let results = measure(name, each, turns, expected, timed);
    let mut line = line_of(name, &results);
    if let [plain, proved] = results[..] {
        line += &format!(" {:>5.2} ({:.2})", proved.0 / plain.0, proved.1 / plain.1);
    }
    println!("{line}");
}

/// The same with the best times' ratios of the second to the first and to the third.
fn time_three(name: &str, each: usize, turns: usize, expected: u64, timed: &mut [Turn]) {
    let results = measure(name, each, turns, Some(expected), timed);
    let mut line = line_of(name, &results);
    if let [plain, proved, host] = results[..] {
        line += &format!(" {:>8.2} {:>8.2}", proved.0 / plain.0, proved.0 / host.0);
    }
    println!("{line}");
}

/// So many frames in so many passes, for so many turns.
fn time_table(shape: &Shape, name: &str, cards: Cards, numbers: [usize; 3], from: &str) {
    let [arrivals, passes, turns] = numbers;
    let letter = &shape.name[..1];
    let name = format!("table, {letter}, {name}, {from}");
    if !is_wanted(&name) {
        return;
    }
    let frames = shape.frames_of(cards, arrivals);
    let given = Given {
        frames: &frames,
        size: shape.size(),
        cards,
        passes,
    };
    let mut timed: Vec<Turn> = vec![Box::new(TableRun::<plain::table::Table>::new(given))];
    #[cfg(feature = "proved")]
    {
        use bench::ends::proved::{Host, Table};
        use bench::tables::{HostRun, compare};
        compare::<plain::table::Table, Table>(given);
        timed.push(Box::new(TableRun::<Table>::new(given)));
        timed.push(Box::new(HostRun::<Host>::new(given)));
    }
    let expected = passes as u64 * shape.accepted_bytes(arrivals);
    time_three(&name, arrivals * passes, turns, expected, &mut timed);
}

/// A card registers and is removed; beside it a host is opened, which clears one pair.
fn time_changes() {
    let name = "table, registering and removing; opening";
    if !is_wanted(name) {
        return;
    }
    let mut timed: Vec<Turn> = vec![Box::new(ChangeRun::<plain::table::Table>::new())];
    #[cfg(feature = "proved")]
    {
        use bench::ends::proved::{Host, Table};
        use bench::tables::OpenRun;
        timed.push(Box::new(ChangeRun::<Table>::new()));
        timed.push(Box::new(OpenRun::<Host>::new()));
    }
    time_three(name, CHANGES, TURNS_OF_STEPS, 0, &mut timed);
}

/// Lets a fresh host have all the frames; gives the data bytes of the accepted ones.
fn receive_all<H: HostEnd>(frames: &[u8], size: usize, memory: &mut [u8]) -> u64 {
    let mut host = H::fresh(FIRST_SOURCE);
    let mut answer = H::Answer::default();
    let mut total = 0;
    for frame in frames.chunks_exact(size) {
        host.receive(frame, memory, &mut answer);
        total += H::bytes(&answer);
    }
    total
}

fn host_turn<'a, H: HostEnd>(frames: &'a [u8], size: usize, calls: usize) -> Turn<'a> {
    let mut memory = vec![0; MEMORY];
    Box::new(move || {
        let run = |_| receive_all::<H>(black_box(frames), size, black_box(&mut memory));
        (0..calls).map(run).sum()
    })
}

fn time_host(shape: &Shape, frames: &[u8], calls: usize, turns: usize, from: &str) {
    let size = shape.size();
    let arrivals = frames.len() / size;
    let name = format!("host, {}, {from}", shape.name);
    if !is_wanted(&name) {
        return;
    }
    let mut timed = vec![host_turn::<plain::host::Host>(frames, size, calls)];
    #[cfg(feature = "proved")]
    {
        use bench::ends::proved::Host;
        compare_hosts::<plain::host::Host, Host>(frames, size);
        timed.push(host_turn::<Host>(frames, size, calls));
    }
    let expected = calls as u64 * shape.accepted_bytes(arrivals);
    time(&name, arrivals * calls, turns, Some(expected), &mut timed);
}

/// Holds two hosts to the same answers and memory.
#[cfg(feature = "proved")]
fn compare_hosts<A: HostEnd, B: HostEnd>(frames: &[u8], size: usize) {
    let (mut one, mut other) = (A::fresh(FIRST_SOURCE), B::fresh(FIRST_SOURCE));
    let mut memories = [vec![0; MEMORY], vec![0; MEMORY]];
    let (mut answer, mut second) = (A::Answer::default(), B::Answer::default());
    for (index, frame) in frames.chunks_exact(size).enumerate() {
        one.receive(frame, &mut memories[0], &mut answer);
        other.receive(frame, &mut memories[1], &mut second);
        assert_eq!(A::words(&answer), B::words(&second), "frame {index}");
    }
    assert!(memories[0] == memories[1], "the memories differ");
}

fn data() -> Vec<u8> {
    (0..2_000).map(|byte| byte as u8).collect()
}

fn card_turn<'a, C: CardEnd + 'a>(steps: Steps) -> Turn<'a> {
    let mut slots = vec![0; SLOTS];
    let data = data();
    let mut card: C = steps.begin(&mut slots);
    Box::new(move || {
        let mut sum = 0u64;
        let see = &mut |result| sum = sum.wrapping_add(result);
        steps.turn(
            black_box(&mut card),
            black_box(&mut slots),
            black_box(&data),
            see,
        );
        sum
    })
}

fn time_card(name: &str, steps: Steps) {
    let name = format!("card, {name}");
    if !is_wanted(&name) {
        return;
    }
    let mut timed = vec![card_turn::<plain::card::Card>(steps)];
    #[cfg(feature = "proved")]
    {
        use bench::ends::proved::Card;
        let turns = 20;
        let plain = results_of::<plain::card::Card>(steps, turns);
        assert!(
            plain == results_of::<Card>(steps, turns),
            "{name}: the cards differ"
        );
        timed.push(card_turn::<Card>(steps));
    }
    time(&name, steps.times(), TURNS_OF_STEPS, None, &mut timed);
}

/// Counts the set marks that words begin with, of all lengths, without a pattern.
fn time_marks() {
    let name = "marks, the run of a word";
    if !is_wanted(name) {
        return;
    }
    let words: Vec<u64> = (0u64..4_096)
        .map(|place| !(1u64 << (place.wrapping_mul(2_654_435_761) >> 7) % 64))
        .collect();
    let words = words.as_slice();
    // Through a pointer, since the proved one is called through the linker's table.
    let plain_marks: extern "C" fn(u64) -> u32 = black_box(plain_marks);
    let plain = move || {
        black_box(words)
            .iter()
            .map(|word| u64::from(plain_marks(*word)))
            .sum()
    };
    let mut timed: Vec<Turn> = vec![Box::new(plain)];
    #[cfg(feature = "proved")]
    {
        use logwhisker::raw::trailing_ones;
        let proved = move || {
            black_box(words)
                .iter()
                .map(|word| u64::from(trailing_ones(*word)))
                .sum()
        };
        timed.push(Box::new(proved));
    }
    time(name, words.len(), TURNS_OF_STEPS, None, &mut timed);
}

/// Blocks of readings, so many in so many passes.
fn time_ledger(kind: Kind, count: usize, passes: usize, turns: usize, from: &str) {
    let name = format!("ledger, {}, {from}", kind.name);
    if !is_wanted(&name) {
        return;
    }
    let blocks = kind.blocks(count);
    let plain = LedgerRun::<plain::ledger::Ledger>::new(kind, &blocks, passes);
    let mut timed: Vec<Turn> = vec![Box::new(plain)];
    #[cfg(feature = "proved")]
    {
        use bench::ends::proved::Ledger;
        use bench::ledgers::compare;
        compare::<plain::ledger::Ledger, Ledger>(kind, &blocks);
        timed.push(Box::new(LedgerRun::<Ledger>::new(kind, &blocks, passes)));
    }
    time(&name, count * passes, turns, None, &mut timed);
}

/// All that a card gives in some turns, and the slots that it leaves.
#[cfg(feature = "proved")]
fn results_of<C: CardEnd>(steps: Steps, turns: usize) -> (Vec<u64>, Vec<u8>) {
    let mut slots = vec![0xa5; SLOTS];
    let data = data();
    let mut card: C = steps.begin(&mut slots);
    let mut results = Vec::new();
    for _ in 0..turns {
        steps.turn(&mut card, &mut slots, &data, &mut |result| {
            results.push(result)
        });
    }
    (results, slots)
}
