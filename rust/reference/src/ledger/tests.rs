//! The ledger by hand-worked cases, on both sides of every edge.

use super::*;

fn reading(subscriber: u32, counter: u32) -> Reading {
    Reading {
        subscriber,
        counter,
    }
}

fn block(readings: &[(u32, u32)]) -> Vec<u8> {
    let readings = readings
        .iter()
        .map(|(who, counter)| reading(*who, *counter));
    block_of(&readings.collect::<Vec<Reading>>())
}

/// A ledger after these blocks, none of which is refused.
fn after(blocks: &[&[(u32, u32)]]) -> Ledger {
    let mut ledger = Ledger::open();
    for readings in blocks {
        assert_eq!(ledger.take(&block(readings)), Ok(()), "{readings:?}");
    }
    ledger
}

fn account(counter: u32, total: u64) -> Account {
    Account { counter, total }
}

/// A refused block leaves the ledger as it was.
fn refuses(ledger: &Ledger, bytes: &[u8], number: u8) {
    let mut tried = ledger.clone();
    assert_eq!(tried.take(bytes), Err(number), "{bytes:?}");
    assert_eq!(&tried, ledger, "{bytes:?}");
}

#[test]
fn an_open_ledger_is_empty() {
    let ledger = Ledger::open();
    assert!((0..SUBSCRIBERS).all(|who| ledger.total(who).is_none()));
    assert_eq!(ledger.sum(), 0);
    assert_eq!(ledger, Ledger::starting_with(&[], 0));
}

#[test]
fn a_reading_is_two_numbers_with_the_low_byte_first() {
    let bytes = [0xff, 0x03, 0, 0, 0x44, 0x33, 0x22, 0x11];
    let read = Reading::from_bytes(&bytes);
    assert_eq!(read, reading(1_023, 0x1122_3344));
    assert_eq!(read.to_bytes(), bytes);
    let mut ledger = Ledger::open();
    assert_eq!(ledger.take(&bytes), Ok(()));
    assert_eq!(ledger.account(1_023), Some(account(0x1122_3344, 0)));
    // All four bytes of the subscriber count.
    for place in 1..4 {
        let mut bytes = reading(3, 0).to_bytes();
        bytes[place] = 4;
        refuses(&ledger, &bytes, refusal::SUBSCRIBER_UNKNOWN);
    }
}

#[test]
fn an_empty_block_is_taken() {
    for mut ledger in [Ledger::open(), after(&[&[(3, 7)], &[(3, 9)]])] {
        let before = ledger.clone();
        assert_eq!(ledger.take(&[]), Ok(()));
        assert_eq!(ledger, before);
    }
}

#[test]
fn sizes() {
    let bytes = block(&[(0, 1), (1, 1), (2, 1)]);
    let ledger = after(&[&[(5, 5)]]);
    for size in 0..=bytes.len() {
        let mut tried = ledger.clone();
        match size {
            0 | 8 | 16 | 24 => assert_eq!(tried.take(&bytes[..size]), Ok(()), "{size}"),
            _ => refuses(&ledger, &bytes[..size], refusal::BLOCK_SIZE),
        }
    }
}

#[test]
fn the_size_is_judged_before_any_reading() {
    let ledger = Ledger::starting_with(&[(0, account(0, u64::MAX))], u64::MAX);
    for readings in [[(1_024, 0), (0, 0)], [(0, 1), (0, 0)]] {
        let bytes = block(&readings);
        for size in 9..16 {
            refuses(&ledger, &bytes[..size], refusal::BLOCK_SIZE);
        }
    }
}

#[test]
fn subscribers() {
    let ledger = after(&[&[(0, 1), (1_023, 2)]]);
    assert_eq!(ledger.total(0), Some(0));
    assert_eq!(ledger.total(1_023), Some(0));
    for unknown in [1_024, 1_025, 2_047, 65_536, 65_539, 1 << 31, u32::MAX] {
        refuses(
            &ledger,
            &block(&[(unknown, 0)]),
            refusal::SUBSCRIBER_UNKNOWN,
        );
        assert_eq!(ledger.total(unknown), None);
    }
}

#[test]
fn a_first_reading_charges_nothing() {
    for counter in [0, 1, 5, u32::MAX] {
        let ledger = after(&[&[(7, counter)]]);
        assert_eq!(ledger.account(7), Some(account(counter, 0)));
        assert_eq!(ledger.sum(), 0);
        assert_eq!(ledger.total(8), None);
    }
}

#[test]
fn later_readings_charge_the_difference() {
    let cases = [
        (0, 0, 0),
        (5, 5, 0),
        (u32::MAX, u32::MAX, 0),
        (0, 1, 1),
        (100, 350, 250),
        (0, u32::MAX, 0xffff_ffff),
        (u32::MAX, 0, 1),
        (u32::MAX, 1, 2),
        (0xffff_fff0, 0x10, 0x20),
        (5, 4, 0xffff_ffff),
        (0x8000_0000, 0x7fff_ffff, 0xffff_ffff),
        (0x8000_0000, 0, 0x8000_0000),
    ];
    for (from, to, passed) in cases {
        let ledger = after(&[&[(9, from)], &[(9, to)]]);
        assert_eq!(
            ledger.account(9),
            Some(account(to, passed)),
            "{from} to {to}"
        );
        assert_eq!(ledger.sum(), passed);
        // In one block it is the same.
        assert_eq!(after(&[&[(9, from), (9, to)]]), ledger);
    }
}

#[test]
fn totals_grow_past_32_bits_and_add_up() {
    let ledger = after(&[
        &[(1, 10), (2, 20), (3, 30)],
        &[(1, 9), (2, 21)],
        &[(1, 8)],
        &[],
        &[(2, 21), (3, 29)],
    ]);
    assert_eq!(ledger.account(1), Some(account(8, 2 * 0xffff_ffff)));
    assert_eq!(ledger.account(2), Some(account(21, 1)));
    assert_eq!(ledger.account(3), Some(account(29, 0xffff_ffff)));
    assert_eq!(ledger.sum(), 3 * 0xffff_ffff + 1);
}

#[test]
fn one_subscriber_several_times_in_a_block() {
    let ledger = after(&[&[(4, 100), (4, 100), (6, 1), (4, 300), (4, 299), (6, 2)]]);
    assert_eq!(ledger.account(4), Some(account(299, 200 + 0xffff_ffff)));
    assert_eq!(ledger.account(6), Some(account(2, 1)));
    assert_eq!(ledger.sum(), 201 + 0xffff_ffff);
}

/// A sum may be the largest number of 64 bits and no larger one.
#[test]
fn the_sum_ends_at_64_bits() {
    let half = 1 << 63;
    let ledger = Ledger::starting_with(
        &[(0, account(50, half)), (1, account(60, half - 11))],
        u64::MAX - 10,
    );
    let mut full = ledger.clone();
    assert_eq!(full.take(&block(&[(1, 70)])), Ok(()));
    assert_eq!(full.sum(), u64::MAX);
    assert_eq!(full.total(1), Some(half - 1));
    refuses(&ledger, &block(&[(1, 71)]), refusal::TOTAL_OVERFLOW);
    refuses(
        &ledger,
        &block(&[(0, 55), (1, 66)]),
        refusal::TOTAL_OVERFLOW,
    );
    refuses(&full, &block(&[(0, 51)]), refusal::TOTAL_OVERFLOW);
    refuses(&full, &block(&[(0, 49)]), refusal::TOTAL_OVERFLOW);
    // Nothing more is charged to equal counters and to first readings.
    let equal = block(&[(0, 50), (1, 70), (2, 1_000)]);
    assert_eq!(full.take(&equal), Ok(()));
    assert_eq!(full.sum(), u64::MAX);
    assert_eq!(full.account(2), Some(account(1_000, 0)));
}

/// The only subscriber's total is the sum.
#[test]
fn a_total_ends_at_64_bits() {
    let ledger = Ledger::starting_with(&[(3, account(0, u64::MAX - 1))], u64::MAX - 1);
    let mut full = ledger.clone();
    assert_eq!(full.take(&block(&[(3, 1)])), Ok(()));
    assert_eq!((full.total(3), full.sum()), (Some(u64::MAX), u64::MAX));
    refuses(&ledger, &block(&[(3, 2)]), refusal::TOTAL_OVERFLOW);
    refuses(&full, &block(&[(3, 2)]), refusal::TOTAL_OVERFLOW);
    refuses(&full, &block(&[(3, 0)]), refusal::TOTAL_OVERFLOW);
}

/// Both are looked at. No blocks lead to such a ledger, in which a total is more than the sum.
#[test]
fn a_total_ends_at_64_bits_whatever_the_sum() {
    let ledger = Ledger::starting_with(&[(3, account(0, u64::MAX - 1))], 0);
    let mut full = ledger.clone();
    assert_eq!(full.take(&block(&[(3, 1)])), Ok(()));
    assert_eq!((full.total(3), full.sum()), (Some(u64::MAX), 1));
    refuses(&ledger, &block(&[(3, 2)]), refusal::TOTAL_OVERFLOW);
}

#[test]
fn the_first_fault_in_the_order_of_readings_is_told() {
    let ledger = Ledger::starting_with(&[(0, account(0, u64::MAX))], u64::MAX);
    let (unknown, over) = ((1_024, 0), (0, 1));
    let (number_unknown, number_over) = (refusal::SUBSCRIBER_UNKNOWN, refusal::TOTAL_OVERFLOW);
    refuses(&ledger, &block(&[unknown, over]), number_unknown);
    refuses(&ledger, &block(&[over, unknown]), number_over);
    refuses(
        &ledger,
        &block(&[(1, 5), (0, 0), unknown, over]),
        number_unknown,
    );
    refuses(
        &ledger,
        &block(&[(1, 5), (0, 0), over, unknown]),
        number_over,
    );
    // An unknown one charges nothing, even where its low bits are a full subscriber's.
    refuses(&ledger, &block(&[(1_024, 1)]), number_unknown);
}

/// What a reading earlier in the block adds counts for the later ones.
#[test]
fn a_block_goes_over_by_its_readings_together() {
    let ledger = Ledger::starting_with(&[(0, account(0, u64::MAX - 2))], u64::MAX - 2);
    let mut taken = ledger.clone();
    assert_eq!(taken.take(&block(&[(0, 1), (0, 2)])), Ok(()));
    assert_eq!(taken.sum(), u64::MAX);
    refuses(
        &ledger,
        &block(&[(0, 1), (0, 2), (0, 3)]),
        refusal::TOTAL_OVERFLOW,
    );
    // A first reading in the block is one that the next goes by.
    let block = block(&[(1, 10), (1, 13)]);
    refuses(&ledger, &block, refusal::TOTAL_OVERFLOW);
}

#[test]
fn a_fault_in_the_last_reading_undoes_the_first() {
    let ledger = after(&[&[(1, 10), (2, 20)], &[(1, 15)]]);
    let bytes = block(&[(1, 16), (2, 25), (3, 1), (1_024, 0)]);
    refuses(&ledger, &bytes, refusal::SUBSCRIBER_UNKNOWN);
    refuses(&ledger, &bytes[..31], refusal::BLOCK_SIZE);
    // Without it the block is taken, and goes by the counters from before.
    let mut taken = ledger;
    assert_eq!(taken.take(&bytes[..24]), Ok(()));
    assert_eq!(taken.account(1), Some(account(16, 6)));
    assert_eq!(taken.account(2), Some(account(25, 5)));
    assert_eq!(taken.account(3), Some(account(1, 0)));
    assert_eq!(taken.sum(), 11);
}

#[test]
#[should_panic(expected = "a ledger has no such account")]
fn no_start_has_other_subscribers() {
    Ledger::starting_with(&[(SUBSCRIBERS, account(0, 0))], 0);
}
