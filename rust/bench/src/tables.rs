//! What tables of sixteen cards are timed on: prepared frames of one card or of all in
//! turn, and sixteen hosts on the same frames, each chosen by its caller; and a card that
//! registers and is removed beside fifteen others. What a turn begins with is made before it
//! is timed.

use crate::ends::{HostEnd, TableEnd};
use crate::shapes::{CARDS, Cards, FIRST_SOURCE, MEMORY, REGION};
use std::hint::black_box;

/// Something to be timed.
pub trait Timed {
    /// Makes what the next turn begins with, which is not timed.
    fn ready(&mut self) {}
    /// A turn, which gives a sum of what it got.
    fn turn(&mut self) -> u64;
}

impl<F: FnMut() -> u64> Timed for F {
    fn turn(&mut self) -> u64 {
        self()
    }
}

/// Frames, all equally long, for so many fresh tables one after another.
#[derive(Clone, Copy)]
pub struct Given<'a> {
    /// The frames.
    pub frames: &'a [u8],
    /// Bytes of each.
    pub size: usize,
    /// Whose they are.
    pub cards: Cards,
    /// Times that all of them arrive in a turn.
    pub passes: usize,
}

fn source_at(place: usize) -> u16 {
    FIRST_SOURCE + place as u16
}

/// A table with all sixteen cards.
fn registered<T: TableEnd>() -> T {
    let mut table = T::fresh();
    for place in 0..CARDS {
        let refusal = table.register(source_at(place), place * REGION, REGION, MEMORY);
        assert_eq!(refusal, 0, "place {place}");
    }
    table
}

/// A table for each pass.
pub struct TableRun<'a, T> {
    given: Given<'a>,
    tables: Vec<T>,
    memory: Vec<u8>,
}

impl<'a, T: TableEnd> TableRun<'a, T> {
    /// To be made ready.
    pub fn new(given: Given<'a>) -> TableRun<'a, T> {
        TableRun {
            given,
            tables: Vec::new(),
            memory: vec![0; MEMORY],
        }
    }
}

impl<T: TableEnd> Timed for TableRun<'_, T> {
    fn ready(&mut self) {
        self.tables.clear();
        let tables = (0..self.given.passes).map(|_| registered());
        self.tables.extend(tables);
    }

    fn turn(&mut self) -> u64 {
        let Given { frames, size, .. } = self.given;
        let memory = black_box(&mut self.memory[..]);
        let mut answer = <T::Host as HostEnd>::Answer::default();
        let (mut source, mut total) = (0, 0);
        for table in &mut self.tables {
            for frame in black_box(frames).chunks_exact(size) {
                table.receive(frame, memory, &mut source, &mut answer);
                total += T::Host::bytes(&answer);
            }
        }
        total
    }
}

/// Hosts in the places of the cards for each pass. Which frame is whose need not be found
/// out: it is known to the caller.
pub struct HostRun<'a, H> {
    given: Given<'a>,
    hosts: Vec<[H; CARDS]>,
    memory: Vec<u8>,
}

impl<'a, H: HostEnd> HostRun<'a, H> {
    /// To be made ready.
    pub fn new(given: Given<'a>) -> HostRun<'a, H> {
        HostRun {
            given,
            hosts: Vec::new(),
            memory: vec![0; MEMORY],
        }
    }
}

fn hosts<H: HostEnd>() -> [H; CARDS] {
    std::array::from_fn(|place| H::fresh(source_at(place)))
}

impl<H: HostEnd> Timed for HostRun<'_, H> {
    fn ready(&mut self) {
        self.hosts.clear();
        let passes = (0..self.given.passes).map(|_| hosts());
        self.hosts.extend(passes);
    }

    fn turn(&mut self) -> u64 {
        let Given {
            frames,
            size,
            cards,
            ..
        } = self.given;
        let places = black_box(cards.places());
        let memory = black_box(&mut self.memory[..]);
        let mut answer = H::Answer::default();
        let mut total = 0;
        for hosts in &mut self.hosts {
            let mut place = places.start;
            for frame in black_box(frames).chunks_exact(size) {
                let region = &mut memory[place * REGION..][..REGION];
                hosts[place].receive(frame, region, &mut answer);
                total += H::bytes(&answer);
                place += 1;
                if place == places.end {
                    place = places.start;
                }
            }
        }
        total
    }
}

/// Holds two tables, and the hosts of the second kind in the places of its cards, to the
/// same answers and memory on every frame.
pub fn compare<A: TableEnd, B: TableEnd>(given: Given) {
    let (mut one, mut other): (A, B) = (registered(), registered());
    let mut hosts = hosts::<B::Host>();
    let mut memories = [vec![0; MEMORY], vec![0; MEMORY], vec![0; MEMORY]];
    let mut first = <A::Host as HostEnd>::Answer::default();
    let mut second = <B::Host as HostEnd>::Answer::default();
    let mut third = <B::Host as HostEnd>::Answer::default();
    let mut sources = [0; 2];
    let mut places = given.cards.places().cycle();
    for (index, frame) in given.frames.chunks_exact(given.size).enumerate() {
        let place = places.next().expect("it goes round");
        let region = &mut memories[2][place * REGION..][..REGION];
        hosts[place].receive(frame, region, &mut third);
        one.receive(frame, &mut memories[0], &mut sources[0], &mut first);
        other.receive(frame, &mut memories[1], &mut sources[1], &mut second);
        let words = B::Host::words(&second);
        assert_eq!(A::Host::words(&first), words, "frame {index}");
        assert_eq!(words, B::Host::words(&third), "frame {index} at a host");
        assert_eq!(sources, [source_at(place); 2], "frame {index}");
    }
    assert!(memories[0] == memories[1], "the memories differ");
    assert!(memories[1] == memories[2], "the hosts' memory differs");
}

/// How often a card registers and is removed in a turn, and how often a host is opened.
pub const CHANGES: usize = 4_096;

/// A card registers at the last place of a table and is removed, over and over.
pub struct ChangeRun<T> {
    table: T,
}

impl<T: TableEnd> ChangeRun<T> {
    /// With fifteen other cards.
    pub fn new() -> ChangeRun<T> {
        let mut table: T = registered();
        assert_eq!(table.remove(source_at(CARDS - 1)), 0);
        ChangeRun { table }
    }
}

impl<T: TableEnd> Default for ChangeRun<T> {
    fn default() -> ChangeRun<T> {
        ChangeRun::new()
    }
}

impl<T: TableEnd> Timed for ChangeRun<T> {
    fn turn(&mut self) -> u64 {
        let (last, source) = black_box((CARDS - 1, source_at(CARDS - 1)));
        let table = black_box(&mut self.table);
        let mut refused = 0;
        for _ in 0..CHANGES {
            let refusal = table.register(source, last * REGION, REGION, MEMORY);
            refused += u64::from(refusal);
            refused += u64::from(table.remove(source));
        }
        refused
    }
}

/// One host is opened over and over.
pub struct OpenRun<H> {
    host: H,
}

impl<H: HostEnd> OpenRun<H> {
    /// A host to start with.
    pub fn new() -> OpenRun<H> {
        OpenRun {
            host: H::fresh(FIRST_SOURCE),
        }
    }
}

impl<H: HostEnd> Default for OpenRun<H> {
    fn default() -> OpenRun<H> {
        OpenRun::new()
    }
}

impl<H: HostEnd> Timed for OpenRun<H> {
    fn turn(&mut self) -> u64 {
        let peer = black_box(FIRST_SOURCE);
        let host = black_box(&mut self.host);
        (0..CHANGES).map(|_| u64::from(host.reopen(peer))).sum()
    }
}
