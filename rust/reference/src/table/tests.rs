//! The table by hand-worked cases: both sides of every edge of a region, every order of two
//! refusals, places that are used again, and pairs that are taken out and adopted.

use super::*;
use crate::wire::{Message, ack_frame, write_frame};

const OURS: u16 = 1;

fn region(first: u64, length: u64) -> Region {
    Region { first, length }
}

fn table() -> Table {
    let (table, refusal) = Table::open(OURS);
    assert_eq!(refusal, None);
    table
}

/// A table with these cards, of a memory of 100 bytes.
fn with(cards: &[(u16, u64, u64)]) -> Table {
    let mut table = table();
    for &(source, first, length) in cards {
        assert_eq!(table.register(source, region(first, length), 100), Ok(()));
    }
    table
}

/// A message of a transaction of its own, which it completes.
fn message(transaction: u32, address: u32, completion: u32, data: &[u8]) -> Message<'_> {
    Message {
        transaction,
        completion_address: completion,
        completion_value: 0x4433_2211,
        count: 1,
        data_address: address,
        data,
    }
}

fn refused(number: u8) -> Answer {
    Answer::Refused { number, place: 0 }
}

/// A call that has to be refused, and then changes nothing.
fn assert_refused<T: std::fmt::Debug>(
    table: &mut Table,
    number: u8,
    call: impl FnOnce(&mut Table) -> Result<T, u8>,
) {
    let before = table.clone();
    assert_eq!(call(table).err(), Some(number));
    assert_eq!(*table, before);
}

#[test]
fn opening() {
    assert_eq!(table().own(), 1);
    let (mut refused_table, refusal) = Table::open(0);
    assert_eq!(refusal, Some(13));
    assert_eq!((refused_table.own(), refused_table.cards()), (0, vec![]));
    let table = &mut refused_table;
    assert_refused(table, 13, |table| table.register(2, region(0, 1), 1));
    assert_refused(table, 3, |table| table.remove(2));
    assert_refused(table, 3, |table| table.remove(0));
    assert_refused(table, 3, |table| table.take(0));
    let pair = Host::starting_at(0, 2, 0, 0);
    assert_refused(table, 13, |table| table.adopt(&pair, region(0, 1), 1));
    let frame = write_frame(0, 0, 0, &[message(0, 0, 0, &[])]);
    assert_eq!(table.receive(&frame, &mut [0; 9]), refused(3));
}

#[test]
fn regions_touch_both_ends_of_memory_and_each_other() {
    for (first, length, memory, refusal) in [
        (0, 0, 100, Some(31)),
        (99, 1, 100, None),
        (99, 2, 100, Some(31)),
        (100, 1, 100, Some(31)),
        (0, 100, 100, None),
        (0, 101, 100, Some(31)),
        (0, 1, 0, Some(31)),
        (u64::MAX, 1, u64::MAX, Some(31)),
        (u64::MAX - 1, 1, u64::MAX, None),
        (0, u64::MAX, u64::MAX, None),
        (1, u64::MAX, u64::MAX, Some(31)),
        (u64::MAX, u64::MAX, 100, Some(31)),
        // The sum is 100 in 64 bits.
        (101, u64::MAX, 100, Some(31)),
    ] {
        let mut table = table();
        let registered = table.register(2, region(first, length), memory);
        assert_eq!(registered.err(), refusal, "{first} {length} {memory}");
    }
    let around = with(&[(2, 40, 20)]);
    for (first, length, refusal) in [
        (0, 40, None),
        (0, 41, Some(29)),
        (60, 40, None),
        (59, 1, Some(29)),
        (40, 1, Some(29)),
        (45, 5, Some(29)),
        (40, 20, Some(29)),
        (0, 100, Some(29)),
        (39, 1, None),
    ] {
        let mut table = around.clone();
        let registered = table.register(3, region(first, length), 100);
        assert_eq!(registered.err(), refusal, "{first} {length}");
    }
}

/// All five reasons, then one less each time, down to none.
#[test]
fn order_of_refusals_at_registering() {
    let sixteen: Vec<(u16, u64, u64)> = (0..16).map(|i| (10 + i, 5 * i as u64, 4)).collect();
    let full = &mut with(&sixteen);
    assert_refused(full, 13, |table| table.register(0, region(0, 0), 0));
    assert_refused(full, 30, |table| table.register(10, region(0, 0), 0));
    assert_refused(full, 31, |table| table.register(9, region(0, 0), 100));
    assert_refused(full, 31, |table| table.register(9, region(0, 81), 80));
    assert_refused(full, 29, |table| table.register(9, region(0, 5), 100));
    assert_refused(full, 28, |table| table.register(9, region(4, 1), 100));
    assert_eq!(full.remove(12), Ok(()));
    assert_eq!(full.register(9, region(4, 1), 100), Ok(()));
    assert_eq!(full.cards().len(), 16);
}

/// Adopting has registering's order, with a pair of another host among the first.
#[test]
fn order_of_refusals_at_adopting() {
    let sixteen: Vec<(u16, u64, u64)> = (0..16).map(|i| (10 + i, 5 * i as u64, 4)).collect();
    let full = &mut with(&sixteen);
    let pair = |own, peer| Host::starting_at(own, peer, 3, 4);
    for (own, peer, first, length, refusal) in [
        (2, 10, 0, 0, 13),
        (0, 10, 0, 0, 13),
        (1, 0, 0, 0, 13),
        (1, 10, 0, 0, 30),
        (1, 9, 0, 0, 31),
        (1, 9, 0, 5, 29),
        (1, 9, 4, 1, 28),
    ] {
        let (pair, region) = (pair(own, peer), region(first, length));
        assert_refused(full, refusal, |table| table.adopt(&pair, region, 100));
    }
    assert_eq!(full.remove(10), Ok(()));
    assert_eq!(full.adopt(&pair(1, 9), region(0, 5), 100), Ok(()));
    assert_eq!(full.take(9), Ok(pair(1, 9)));
}

#[test]
fn a_removed_source_is_fresh_when_it_registers_again() {
    let mut table = with(&[(2, 0, 50)]);
    let mut memory = [0; 100];
    let frame = write_frame(1, 2, 0, &[message(0, 0, 4, &[7])]);
    let accepted = Answer::Accepted {
        number: 0,
        messages: 1,
        bytes: 1,
        completed: 1,
        run: 1,
    };
    let again = Answer::Again { number: 0, run: 1 };
    assert_eq!(table.receive(&frame, &mut memory), accepted);
    assert_eq!(table.receive(&frame, &mut memory), again);
    assert_eq!(table.remove(2), Ok(()));
    assert_eq!(memory[0], 7, "memory stays");
    assert_refused(&mut table, 3, |table| table.remove(2));
    assert_eq!(table.receive(&frame, &mut memory), refused(3));
    assert_eq!(table.register(2, region(50, 50), 100), Ok(()));
    assert_eq!(table.receive(&frame, &mut memory), accepted);
    assert_eq!(memory[50], 7);
}

#[test]
fn addresses_count_from_the_regions_start() {
    let mut table = with(&[(2, 10, 8), (3, 18, 8), (1, 30, 4)]);
    let mut memory = [0; 100];
    // The last byte of data and of the completion are the region's last.
    for (source, first) in [(2, 10), (3, 18)] {
        let frame = write_frame(
            1,
            source,
            0,
            &[message(0, 7, 0, &[9]), message(1, 8, 4, &[])],
        );
        let Answer::Accepted { completed: 2, .. } = table.receive(&frame, &mut memory) else {
            panic!("both fit");
        };
        let expected = [0x11, 0x22, 0x33, 0x44, 0x11, 0x22, 0x33, 0x44];
        assert_eq!(memory[first..first + 8], expected);
    }
    let before = memory;
    for (message, number) in [
        (message(2, 8, 0, &[1]), 11),
        (message(2, 9, 0, &[]), 11),
        (message(2, 0, 5, &[]), 12),
        (message(2, u32::MAX, 0, &[1]), 11),
    ] {
        let frame = write_frame(1, 2, 1, &[message]);
        assert_eq!(table.receive(&frame, &mut memory), refused(number));
    }
    assert_eq!(memory, before);
    // A card may have our own ID.
    let frame = write_frame(1, 1, 0, &[message(0, 4, 0, &[])]);
    let answer = table.receive(&frame, &mut memory);
    assert_eq!(memory[30..34], [0x11, 0x22, 0x33, 0x44]);
    let acknowledgement = table.acknowledgement(answer, 1, 5);
    assert_eq!(acknowledgement, Some(ack_frame(1, 1, 5, 0, 1)));
}

/// A frame that all of these would refuse, then with one reason less each time.
#[test]
fn order_of_refusals_at_receiving() {
    let mut table = with(&[(2, 10, 8), (3, 18, 8)]);
    let bad = |source, number| write_frame(1, source, number, &[message(99, 9, 0, &[])]);
    let mut flagged = bad(2, 64);
    flagged[9] = 0xff;
    let mut cut = bad(2, 64);
    cut.pop();
    let mut long = bad(9, 64);
    long.resize(9_001, 0);
    // 18 bytes are all of the first card's region and none of the second's.
    for (frame, length, number) in [
        (&flagged[..9], 17, 1),
        (&[], 0, 1),
        (&long, 17, 2),
        (&long[..9_000], 17, 3),
        (&write_frame(2, 2, 0, &[]), 17, 3),
        (&bad(9, 64), 17, 3),
        (&bad(0, 64), 17, 3),
        (&flagged, 17, 31),
        (&flagged, 0, 31),
        (&flagged, 18, 4),
        (&cut, 17, 31),
        (&cut, 18, 5),
        (&bad(2, 64), 17, 31),
        (&bad(2, 64), 18, 6),
        (&bad(2, 0), 17, 31),
        (&bad(2, 0), 18, 7),
        (&bad(3, 0), 18, 31),
    ] {
        let before = table.clone();
        let mut memory = vec![8; length];
        let answer = table.receive(frame, &mut memory);
        assert_eq!(answer, refused(number));
        assert_eq!(table.acknowledgement(answer, 2, 0), None);
        assert_eq!((table.clone(), memory), (before, vec![8; length]));
    }
    // Short memories meet frames without messages and repeats alike.
    let empty = write_frame(1, 2, 0, &[]);
    assert_eq!(table.receive(&empty, &mut [0; 17]), refused(31));
    assert_eq!(table.receive(&empty, &mut [0; 18]), Answer::NoMessages);
    let behind = bad(2, 65_535);
    assert_eq!(table.receive(&behind, &mut [0; 17]), refused(31));
    let again = Answer::Again {
        number: 65_535,
        run: 1,
    };
    assert_eq!(table.receive(&behind, &mut [0; 18]), again);
    let acknowledgement = table.acknowledgement(again, 2, 7);
    assert_eq!(acknowledgement, Some(ack_frame(2, 1, 7, 65_535, 1)));
}

/// A pair goes on in another table and another region, where its bytes were brought.
#[test]
fn a_pair_is_taken_out_and_adopted() {
    let mut first = with(&[(2, 10, 8)]);
    let mut memory = [0; 100];
    let frame = |number, transaction| {
        let message = Message {
            count: 2,
            ..message(transaction, 0, 4, &[5])
        };
        write_frame(1, 2, number, &[message])
    };
    let frames = [frame(0, 0), frame(1, 0)];
    first.receive(&frames[0], &mut memory);
    let pair = first.take(2).unwrap();
    assert_eq!((pair.ids(), pair.next()), ((1, 2), 1));
    assert_eq!(pair.open_transactions().len(), 1);
    assert_eq!(first.take(2), Ok(pair.clone()), "a copy leaves the pair");
    assert_refused(&mut first, 3, |table| table.take(3));

    let mut second = with(&[(3, 10, 8)]);
    assert_refused(&mut second, 29, |table| {
        table.adopt(&pair, region(17, 8), 100)
    });
    assert_eq!(second.adopt(&pair, region(18, 8), 100), Ok(()));
    let again = Answer::Again { number: 0, run: 1 };
    assert_eq!(second.receive(&frames[0], &mut memory), again);
    let answer = second.receive(&frames[1], &mut memory);
    let accepted = Answer::Accepted {
        number: 1,
        messages: 1,
        bytes: 1,
        completed: 1,
        run: 1,
    };
    assert_eq!(answer, accepted);
    assert_eq!(memory[18..26], [5, 0, 0, 0, 0x11, 0x22, 0x33, 0x44]);
    assert_eq!(
        first.take(2),
        Ok(pair),
        "the first table knows nothing of it"
    );
}

#[test]
fn cards_are_told_by_their_regions() {
    let table = with(&[(7, 60, 9), (2, 0, 3), (9, 3, 1), (3, 70, 30)]);
    let told: Vec<(u16, u64, u64)> = table
        .cards()
        .iter()
        .map(|card| (card.source, card.region.first, card.region.length))
        .collect();
    assert_eq!(told, [(2, 0, 3), (9, 3, 1), (7, 60, 9), (3, 70, 30)]);
}

#[test]
fn a_frame_names_its_source() {
    assert_eq!(source_of(&[1, 0, 2]), None);
    assert_eq!(source_of(&[1, 0, 2, 3]), Some(0x0302));
}

/// A call on a table of a memory of so few bytes that all calls can be tried.
#[derive(Clone, Copy, Debug)]
enum Small {
    Register(u16, u64, u64),
    Remove(u16),
}

const BYTES: usize = 4;

/// Who has each byte.
type Owners = [Option<u16>; BYTES];

impl Small {
    fn all() -> Vec<Small> {
        let mut calls = Vec::new();
        for source in 1..4 {
            calls.push(Small::Remove(source));
            for first in 0..=BYTES as u64 {
                let lengths = 0..=BYTES as u64 + 1;
                calls.extend(lengths.map(|length| Small::Register(source, first, length)));
            }
        }
        calls
    }

    fn make(self, table: &mut Table) -> Result<(), u8> {
        match self {
            Small::Register(source, first, length) => {
                table.register(source, region(first, length), BYTES as u64)
            }
            Small::Remove(source) => table.remove(source),
        }
    }

    /// The same byte by byte.
    fn expected(self, owners: &mut Owners) -> Result<(), u8> {
        match self {
            Small::Register(source, first, length) => {
                let bytes = first as usize..(first + length) as usize;
                if owners.contains(&Some(source)) {
                    return Err(30);
                }
                if bytes.is_empty() || bytes.clone().any(|byte| byte >= BYTES) {
                    return Err(31);
                }
                if bytes.clone().any(|byte| owners[byte].is_some()) {
                    return Err(29);
                }
                owners[bytes].fill(Some(source));
            }
            Small::Remove(source) => {
                if !owners.contains(&Some(source)) {
                    return Err(3);
                }
                let its = owners.iter_mut().filter(|owner| **owner == Some(source));
                its.for_each(|owner| *owner = None);
            }
        }
        Ok(())
    }
}

/// All lists of so many calls in which only the last one is refused.
fn compare_small(table: &Table, owners: &Owners, calls: &[Small], left: usize) -> u64 {
    let mut lists = 0;
    for call in calls {
        let (mut table, mut owners) = (table.clone(), *owners);
        let (got, expected) = (call.make(&mut table), call.expected(&mut owners));
        assert_eq!(got, expected, "{call:?} after {:?}", table.cards());
        lists += 1;
        // A refused call leaves what was looked at already.
        if got.is_ok() && left > 1 {
            lists += compare_small(&table, &owners, calls, left - 1);
        }
    }
    lists
}

#[test]
fn all_short_lists_of_a_small_memory() {
    let lists = compare_small(&table(), &[None; BYTES], &Small::all(), 4);
    assert!(lists > 50_000, "{lists} lists");
}
