//! The rules of a table one by one at the proved table, each by a small case whose answer is
//! written here; the independent table has to answer the same. Tables here have ID 1.

#[path = "both/table.rs"]
// Answers are given as such here.
#[allow(dead_code)]
mod both;

use both::Both;
use logwhisker::raw::HOST_WORDS;
use logwhisker::{Host as Pair, LONGEST_TEXT, Refusal, Registered, Table};
use reference::host::{Answer, Host};
use reference::table::Region;
use reference::wire::{self, Message, write_frame};

const OWN: u16 = 1;

fn region(first: u64, length: u64) -> Region {
    Region { first, length }
}

fn opened(memory: &[u8]) -> Both {
    let (both, opened) = Both::open(OWN, memory);
    assert_eq!(opened, Ok(()));
    both
}

/// Sixteen cards, 2 to 17, with regions of five bytes that touch, in 100 bytes.
fn full() -> Both {
    let mut both = opened(&[0; 100]);
    for card in 0..16 {
        let region = region(5 * u64::from(card), 5);
        assert_eq!(both.register(2 + card, region, 100), Ok(()));
    }
    both
}

/// One message that completes its transaction.
fn message(transaction: u32, address: u32, data: &[u8], completion: u32) -> Message<'_> {
    Message {
        transaction,
        completion_address: completion,
        completion_value: 0x1122_3344,
        count: 1,
        data_address: address,
        data,
    }
}

fn refused(number: u8) -> Answer {
    Answer::Refused { number, place: 0 }
}

fn is_accepted(answer: Answer) -> bool {
    matches!(answer, Answer::Accepted { .. })
}

/// A table of ID 0 is refused, and is there without cards: it refuses all that follows.
#[test]
fn openings() {
    for own in [0, 1, 2, 255, 256, 65_535] {
        let (mut both, opened) = Both::open(own, &[0; 20]);
        assert_eq!(both.table().own(), own);
        assert_eq!(both.table().cards(), []);
        assert_eq!(opened, if own == 0 { Err(13) } else { Ok(()) });
        let registered = both.register(2, region(0, 20), 20);
        assert_eq!(registered, opened);
        let frame = write_frame(own, 2, 0, &[message(0, 0, &[7], 4)]);
        let answer = both.receive(&frame, 20, 0);
        assert_eq!(is_accepted(answer), own != 0);
        assert!(own != 0 || answer == refused(3));
        assert_eq!(both.remove(2), if own == 0 { Err(3) } else { Ok(()) });
        let pair = Host::starting_at(own, 2, 0, 0).to_words();
        assert_eq!(both.adopt(&pair, region(0, 20), 20), opened);
    }
    assert_eq!(Table::open(0).err(), Some(Refusal::ID_ZERO));
    let mut table = Table::open(1).expect("the ID is not 0");
    assert_eq!(table.register(2, 0, 20, 20), Ok(()));
    assert_eq!(table.reopen(0), Err(Refusal::ID_ZERO));
    assert_eq!(table, Table::new());
    assert_eq!((table.own(), table.cards()), (0, Vec::new()));
    // An opening makes a table of whatever was there.
    assert_eq!(table.reopen(9), Ok(()));
    assert_eq!((table.own(), table.cards()), (9, Vec::new()));
}

/// The pair of a card that registers is fresh, also where a card of that ID was before.
#[test]
fn registering_starts_a_fresh_pair() {
    let mut both = opened(&[0; 40]);
    let (fresh, _) = Host::open(OWN, 7);
    for first in [0, 20, 0] {
        assert_eq!(both.register(7, region(first, 20), 40), Ok(()));
        let pair = both.take(7).expect("it is registered");
        assert_eq!(Host::from_words(&pair), fresh);
        let frame = write_frame(OWN, 7, 0, &[message(0, 0, &[1, 2], 4)]);
        assert!(is_accepted(both.receive(&frame, 40, 0)));
        let pair = both.take(7).expect("it is registered");
        assert_ne!(Host::from_words(&pair), fresh);
        assert_eq!(both.remove(7), Ok(()));
    }
}

/// Regions of one to all bytes, of none, and past the end by one byte or past all numbers.
#[test]
fn a_region_has_a_byte_and_lies_inside_memory() {
    for memory in [0, 1, 2, 5, u64::MAX - 1, u64::MAX] {
        let near = [0, 1, 2, 4, 5, 6, 1 << 63];
        let far = [0, 1, 2, 3, 5, 6].map(|step| u64::MAX - step);
        let numbers: Vec<u64> = near.into_iter().chain(far).collect();
        for &first in &numbers {
            for &length in &numbers {
                let end = u128::from(first) + u128::from(length);
                let fits = length > 0 && end <= u128::from(memory);
                let expected = if fits { Ok(()) } else { Err(31) };
                let registered = opened(&[]).register(2, region(first, length), memory);
                assert_eq!(registered, expected, "{first} {length} of {memory}");
            }
        }
    }
}

/// All pairs of regions in eight bytes: they overlap exactly if they have a byte in common.
#[test]
fn regions_that_touch_do_not_overlap() {
    let regions = (0..8).flat_map(|first| (1..=8 - first).map(move |length| (first, length)));
    let regions: Vec<(u64, u64)> = regions.collect();
    let mut touching = 0;
    for &(first, length) in &regions {
        let mut one = opened(&[0; 8]);
        assert_eq!(one.register(2, region(first, length), 8), Ok(()));
        for &(other, size) in &regions {
            let mut both = one.clone();
            let bytes = other..other + size;
            let common = (first..first + length).any(|byte| bytes.contains(&byte));
            let expected = if common { Err(29) } else { Ok(()) };
            assert_eq!(both.register(3, region(other, size), 8), expected);
            touching += u32::from(!common && (other == first + length || first == other + size));
        }
    }
    assert!(touching > 50);
}

/// Every two causes of a refusal together, for registering and for adopting.
#[test]
fn registering_refuses_in_order() {
    // The first sixteen touch from byte 0 to byte 79; bytes 80 to 99 are free.
    let regions = [
        (region(80, 20), [false, false]),
        (region(80, 0), [true, false]),
        (region(81, 20), [true, false]),
        (region(u64::MAX, u64::MAX), [true, false]),
        (region(79, 1), [false, true]),
        (region(0, 100), [false, true]),
        (region(79, 22), [true, true]),
        (region(79, u64::MAX), [true, true]),
    ];
    let mut met = std::collections::BTreeSet::new();
    let empty = || Both::open(0, &[0; 100]).0;
    let fifteen = || {
        let mut both = full();
        assert_eq!(both.remove(2), Ok(()));
        both
    };
    for (table, own, is_full) in [
        (full as fn() -> Both, OWN, true),
        (fifteen, OWN, false),
        (empty, 0, false),
    ] {
        for source in [0, 5, 40] {
            for (at, [outside, overlaps]) in regions {
                let causes = [
                    (13, own == 0 || source == 0),
                    (30, own != 0 && source == 5),
                    (31, outside),
                    (29, own != 0 && overlaps),
                    (28, is_full),
                ];
                let causes = causes.iter().filter(|(_, applies)| *applies);
                let causes: Vec<u8> = causes.map(|(number, _)| *number).collect();
                let expected = causes.first().map_or(Ok(()), |number| Err(*number));
                assert_eq!(table().register(source, at, 100), expected);
                let pair = Host::starting_at(own, source, 9, 9).to_words();
                assert_eq!(table().adopt(&pair, at, 100), expected);
                // A pair of another host is refused before all else.
                let pair = Host::starting_at(7, source, 9, 9).to_words();
                assert_eq!(table().adopt(&pair, at, 100), Err(13));
                for one in &causes {
                    for two in &causes {
                        met.insert((*one, *two));
                    }
                }
            }
        }
    }
    // 13 and 30 exclude each other, since no card of ID 0 is registered.
    for (one, two) in [
        (13, 31),
        (13, 29),
        (13, 28),
        (30, 31),
        (30, 29),
        (30, 28),
        (31, 29),
        (31, 28),
        (29, 28),
    ] {
        assert!(met.contains(&(one, two)), "{one} and {two} together");
    }
}

#[test]
fn removing_a_source_that_is_not_registered() {
    let mut both = opened(&[0; 10]);
    for source in [0, 1, 2, 65_535] {
        assert_eq!(both.remove(source), Err(3));
    }
    assert_eq!(both.register(2, region(0, 10), 10), Ok(()));
    assert_eq!(both.remove(3), Err(3));
    assert_eq!(both.remove(2), Ok(()));
    assert_eq!(both.remove(2), Err(3));
}

/// Sixteen cards, each removed and followed by another one over and over.
#[test]
fn a_removed_place_is_used_again() {
    let mut both = full();
    for round in 0..40 {
        let (gone, next) = (2 + round, 18 + round);
        let freed = region(5 * u64::from(round % 16), 5);
        assert_eq!(both.register(next, region(80, 5), 100), Err(28));
        assert_eq!(both.remove(gone), Ok(()));
        assert_eq!(both.register(next, freed, 100), Ok(()));
        assert_eq!(both.table().cards().len(), 16);
        let frame = write_frame(OWN, next, 0, &[message(0, 4, &[9], 0)]);
        assert!(is_accepted(both.receive(&frame, 100, 0)));
        assert_eq!(
            both.receive(&write_frame(OWN, gone, 0, &[]), 100, 0),
            refused(3)
        );
    }
}

/// At each of sixteen places: data and completion up to the region's last byte, and one
/// byte past it, which is the next card's first.
#[test]
fn addresses_count_from_the_regions_start() {
    for card in 0..16u16 {
        let mut both = full();
        let source = 2 + card;
        let first = 5 * usize::from(card);
        let past = |place| Answer::Refused {
            number: if place == 0 { 11 } else { 12 },
            place: 0,
        };
        let frame = |data, completion| {
            write_frame(OWN, source, 0, &[message(0, data, &[8, 9], completion)])
        };
        assert_eq!(both.receive(&frame(4, 0), 100, 0), past(0));
        assert_eq!(both.receive(&frame(u32::MAX, 0), 100, 0), past(0));
        assert_eq!(both.receive(&frame(0, 2), 100, 0), past(1));
        assert_eq!(both.receive(&frame(0, u32::MAX), 100, 0), past(1));
        assert_eq!(both.memory(), [0; 100]);
        assert!(is_accepted(both.receive(&frame(3, 0), 100, 0)));
        let mut expected = [0; 100];
        // The completion comes after the data.
        expected[first..first + 5].copy_from_slice(&[0x44, 0x33, 0x22, 0x11, 9]);
        assert_eq!(both.memory(), expected);
        let frame = write_frame(OWN, source, 1, &[message(1, 0, &[], 1)]);
        assert!(is_accepted(both.receive(&frame, 100, 0)));
        expected[first..first + 5].copy_from_slice(&[0x44, 0x44, 0x33, 0x22, 0x11]);
        assert_eq!(both.memory(), expected);
    }
}

/// Not to our ID, or not from a card that is registered.
#[test]
fn frames_of_no_registered_card() {
    let mut both = full();
    for (to, from) in [(2, 2), (0, 2), (257, 2), (1, 0), (1, 1), (1, 18), (1, 258)] {
        let frame = write_frame(to, from, 0, &[message(0, 0, &[], 0)]);
        assert_eq!(both.receive(&frame, 100, 0), refused(3), "{to} {from}");
    }
    let frame = write_frame(1, 2, 0, &[message(0, 0, &[], 0)]);
    assert!(is_accepted(both.receive(&frame, 100, 0)));
    // Our own ID is a source as any other.
    assert_eq!(both.register(1, region(80, 5), 100), Err(28));
    assert_eq!(both.remove(9), Ok(()));
    assert_eq!(both.register(1, region(80, 5), 100), Ok(()));
    let frame = write_frame(1, 1, 0, &[message(0, 0, &[], 0)]);
    assert!(is_accepted(both.receive(&frame, 100, 0)));
}

/// 31 comes after 1, 2 and 3 and before 4, 5, 6, what is again and what has no messages.
#[test]
fn a_memory_that_ends_before_the_region() {
    let mut both = opened(&[0; 40]);
    assert_eq!(both.register(2, region(10, 20), 40), Ok(()));
    assert_eq!(both.register(3, region(30, 10), 40), Ok(()));
    let first = write_frame(OWN, 2, 0, &[message(0, 0, &[1], 4)]);
    let mut flags = first.clone();
    flags[9] = 3;
    let cut = &first[..first.len() - 1];
    let ahead = write_frame(OWN, 2, 64, &[message(0, 0, &[1], 4)]);
    let none = write_frame(OWN, 2, 0, &[]);
    let short = &first[..9];
    let mut long = first.clone();
    long.resize(9_001, 0);
    let other_host = write_frame(9, 2, 0, &[message(0, 0, &[1], 4)]);
    let other_card = write_frame(OWN, 9, 0, &[message(0, 0, &[1], 4)]);
    let outside = write_frame(OWN, 2, 0, &[message(0, 20, &[1], 4)]);
    for lent in [0, 1, 9, 10, 11, 29] {
        for frame in [&first, &flags, cut, &ahead, &none, &outside] {
            assert_eq!(both.receive(frame, lent, 0), refused(31), "{lent}");
        }
        for (frame, number) in [(short, 1), (&long, 2), (&other_host, 3), (&other_card, 3)] {
            assert_eq!(both.receive(frame, lent, 0), refused(number), "{lent}");
        }
    }
    // What ends with the region is enough, whatever the other card has.
    for (frame, number) in [(&flags[..], 4), (cut, 5), (&ahead, 6), (&outside, 11)] {
        assert_eq!(both.receive(frame, 30, 0), refused(number));
    }
    assert_eq!(both.receive(&none, 30, 0), Answer::NoMessages);
    assert!(is_accepted(both.receive(&first, 30, 0)));
    assert_eq!(both.receive(&first, 29, 0), refused(31));
    assert!(matches!(both.receive(&first, 30, 0), Answer::Again { .. }));
}

#[test]
fn acknowledgements_go_to_the_source() {
    let mut table = Table::open(OWN).expect("the ID is not 0");
    let mut memory = [0; 40];
    for source in [2, 300, 1] {
        let first = 10 * table.cards().len();
        assert_eq!(table.register(source, first, 10, 40), Ok(()));
    }
    for (number, source) in [(0, 2), (0, 300), (0, 1), (1, 300), (1, 300)] {
        let message = message(number.into(), 0, &[], 0);
        let frame = write_frame(OWN, source, number, &[message]);
        let (answer, named) = table.receive(&frame, &mut memory);
        assert_eq!(named, source);
        let expected = wire::ack_frame(source, OWN, 7, number, 1);
        let acknowledged = table.acknowledge(&answer, named, 7);
        assert_eq!(acknowledged, Some(expected), "{number} of {source}");
    }
    let (answer, source) = table.receive(&write_frame(OWN, 9, 0, &[]), &mut memory);
    assert_eq!(table.acknowledge(&answer, source, 7), None);
}

/// A frame left over from an earlier registering is refused while its card is gone. Once the
/// ID is there again nothing tells it from a new one, so that it counts as invented.
#[test]
fn a_frame_left_over() {
    let mut both = opened(&[0; 20]);
    let frame = write_frame(OWN, 2, 0, &[message(0, 0, &[5], 4)]);
    assert_eq!(both.register(2, region(0, 10), 20), Ok(()));
    assert!(is_accepted(both.receive(&frame, 20, 0)));
    assert!(matches!(both.receive(&frame, 20, 0), Answer::Again { .. }));
    assert_eq!(both.remove(2), Ok(()));
    assert_eq!(both.receive(&frame, 20, 0), refused(3));
    assert_eq!(both.register(2, region(10, 10), 20), Ok(()));
    assert!(is_accepted(both.receive(&frame, 20, 0)));
    assert_eq!((both.memory()[0], both.memory()[10]), (5, 5));
}

/// A removal changes no byte of memory.
#[test]
fn memory_keeps_what_a_removed_card_has_written() {
    let mut both = full();
    let frame = write_frame(OWN, 3, 0, &[message(0, 4, &[5], 0)]);
    assert!(is_accepted(both.receive(&frame, 100, 0)));
    let before = both.memory().to_vec();
    assert_eq!(both.remove(3), Ok(()));
    assert_eq!(both.memory(), before);
    assert_eq!(both.register(3, region(5, 5), 100), Ok(()));
    assert_eq!(both.memory(), before);
}

/// What all cards are answered adds up to what each of them sent.
#[test]
fn sums_of_several_cards_add_up() {
    let mut both = full();
    let mut sums = [0; 3];
    let mut expected = [0; 3];
    for round in 0..30u16 {
        for card in 0..16u16 {
            if (round + card) % 3 == 0 {
                continue;
            }
            let data = vec![7; usize::from(1 + card % 5)];
            let number = {
                let pair = both.take(2 + card).expect("it is registered");
                Host::from_words(&pair).next()
            };
            let message = message(number.into(), 0, &data, 0);
            let frame = write_frame(OWN, 2 + card, number, &[message]);
            for answer in [both.receive(&frame, 100, 0), both.receive(&frame, 100, 0)] {
                if let Answer::Accepted {
                    messages,
                    bytes,
                    completed,
                    ..
                } = answer
                {
                    sums = [sums[0] + messages, sums[1] + bytes, sums[2] + completed];
                }
            }
            expected = [
                expected[0] + 1,
                expected[1] + data.len() as u64,
                expected[2] + 1,
            ];
        }
    }
    assert_eq!(sums, expected);
    assert_eq!(sums[0], 320);
}

/// A pair in the middle of things: a frame ahead, and an open transaction.
fn busy(source: u16) -> Vec<Vec<u8>> {
    let open = Message {
        count: 2,
        ..message(0, 0, &[6], 0)
    };
    vec![
        write_frame(OWN, source, 0, &[open]),
        write_frame(OWN, source, 2, &[message(1, 1, &[7], 0)]),
    ]
}

#[test]
fn taking_a_pair_out() {
    let mut both = full();
    for frame in busy(6) {
        assert!(is_accepted(both.receive(&frame, 100, 0)));
    }
    for source in [0, 1, 18, 65_535] {
        assert_eq!(both.take(source), Err(3));
    }
    let pair = Pair::from_words(both.take(6).expect("it is registered"));
    let description = pair.describe();
    assert_eq!((description.own, description.peer), (OWN, 6));
    assert_eq!((description.next, description.marks), (1, 2));
    assert_eq!((description.lowest, description.closed), (0, 2));
    let [open] = description.open() else {
        panic!("one transaction is open");
    };
    assert_eq!((open.number, open.count, open.received), (0, 2, 1));
    // It is a copy: the table goes on as before, and so does the host.
    assert_eq!(both.take(6).map(Pair::from_words), Ok(pair));
    assert_eq!(both.table().cards().len(), 16);
}

/// Removed and adopted with the same region or another, a card goes on where it was.
#[test]
fn an_adopted_pair_goes_on() {
    let mut both = full();
    for frame in busy(6) {
        assert!(is_accepted(both.receive(&frame, 100, 0)));
    }
    let cards = both.table().cards();
    for at in [region(20, 5), region(90, 10), region(20, 5)] {
        let pair: [u64; HOST_WORDS] = both.take(6).expect("it is registered");
        assert_eq!(both.adopt(&pair, at, 100), Err(30));
        assert_eq!(both.remove(6), Ok(()));
        assert_eq!(both.adopt(&pair, at, 100), Ok(()));
        assert_eq!(both.take(6), Ok(pair));
        for frame in busy(6) {
            assert!(matches!(both.receive(&frame, 100, 0), Answer::Again { .. }));
        }
    }
    assert_eq!(both.table().cards(), cards);
    let last = Message {
        count: 2,
        ..message(0, 4, &[8], 0)
    };
    let answer = both.receive(&write_frame(OWN, 6, 1, &[last]), 100, 0);
    let accepted = Answer::Accepted {
        number: 1,
        messages: 1,
        bytes: 1,
        completed: 1,
        run: 2,
    };
    assert_eq!(answer, accepted);
}

/// Each pair is stored as text, and the table is opened anew with all of them.
#[test]
fn a_restart_of_sixteen_cards() {
    let mut memory = [0; 100];
    let mut table = Table::open(OWN).expect("the ID is not 0");
    for card in 0..16u16 {
        let registered = table.register(2 + card, 5 * usize::from(card), 5, 100);
        assert_eq!(registered, Ok(()));
        for frame in busy(2 + card).iter().take(usize::from(card % 3)) {
            table.receive(frame, &mut memory);
        }
    }
    let mut texts = Vec::new();
    for Registered { source, region } in table.cards() {
        let mut text = vec![0; LONGEST_TEXT];
        let pair = table.take(source).expect("it is registered");
        let length = pair.store(&mut text).expect("it fits");
        texts.push((text[..length].to_vec(), region));
    }
    let mut anew = Table::open(OWN).expect("the ID is not 0");
    for (text, region) in texts {
        let pair = Pair::from_text(&text).expect("it was stored");
        let adopted = anew.adopt(&pair, region.start, region.len(), 100);
        assert_eq!(adopted, Ok(()));
    }
    assert_eq!(anew.cards(), table.cards());
    let mut left = memory;
    for card in 0..16u16 {
        let pair = |table: &Table| table.take(2 + card).map(|pair| pair.describe());
        assert_eq!(pair(&anew), pair(&table), "{card}");
        for frame in busy(2 + card) {
            let expected = table.receive(&frame, &mut memory);
            assert_eq!(anew.receive(&frame, &mut left), expected, "{card}");
        }
        assert_eq!(pair(&anew), pair(&table), "{card}");
    }
    assert_eq!(left, memory);
}

#[test]
fn a_table_is_described() {
    let mut table = Table::open(300).expect("the ID is not 0");
    assert_eq!((table.own(), table.cards()), (300, Vec::new()));
    for (source, first, size) in [(9, 50, 10), (2, 0, 7), (65_535, 60, 40)] {
        assert_eq!(table.register(source, first, size, 100), Ok(()));
    }
    assert_eq!(table.remove(2), Ok(()));
    let mut cards = table.cards();
    cards.sort_by_key(|card| card.source);
    let expected = [(9, 50..60), (65_535, 60..100)];
    let expected = expected.map(|(source, region)| Registered { source, region });
    assert_eq!(cards, expected);
    assert_eq!(table.own(), 300);
}
