//! The card by hand-worked cases: edges and orders of refusals, every byte of the slots,
//! and what ranges of acknowledgements do.

use super::*;
use crate::cases::{WHOLE_CASE, WHOLE_CASE_ACKNOWLEDGEMENT};
use crate::wire::{ack_frame, layout, write_frame};

const FILL: u8 = 0xa5;

/// A card with its slots.
struct Ready {
    card: Card,
    slots: Vec<u8>,
}

impl Ready {
    fn new(limit: usize) -> Ready {
        let slots = vec![FILL; SLOTS * limit];
        let (card, refusal) = Card::open(2, 1, limit, &slots);
        assert_eq!(refusal, None);
        Ready { card, slots }
    }

    fn open(&mut self, count: u16) -> u32 {
        self.card.open_transaction(count, 0, 0).unwrap()
    }

    fn add(&mut self, transaction: u32, length: usize) -> Result<(), u8> {
        let data = vec![7; length];
        self.card.add(transaction, 0, &data, &mut self.slots)
    }

    fn seal(&mut self) -> Result<u16, u8> {
        self.card.seal(&self.slots)
    }

    /// Seals so many frames of one message each.
    fn seal_frames(&mut self, transaction: u32, frames: usize) {
        for _ in 0..frames {
            self.add(transaction, 0).unwrap();
            self.seal().unwrap();
        }
    }

    fn acknowledge(&mut self, start: u16, count: u8) {
        self.card.read(&ack_frame(2, 1, 0, start, count)).unwrap();
    }

    fn shown(&self, number: u16) -> Result<&[u8], u8> {
        let part = self.card.show(number, &self.slots);
        let refusal = self.card.show_refusal(number, &self.slots);
        assert_eq!(part.is_empty(), refusal.is_some());
        refusal.map_or(Ok(part), Err)
    }

    fn chosen(&self, lent: &[u8]) -> Result<Vec<u8>, u8> {
        let part = self.card.choose(lent, &self.slots);
        let refusal = self.card.choose_refusal(lent, &self.slots);
        assert_eq!(part.is_empty(), refusal.is_some());
        refusal.map_or(Ok(part.to_vec()), Err)
    }
}

#[test]
fn whole_case_is_built_as_shown_and_released() {
    let mut ready = Ready::new(38);
    let number = ready.card.open_transaction(1, 64, 0x1122_3344);
    assert_eq!(number, Ok(0));
    let data = [0x0a, 0x0b, 0x0c, 0x0d];
    ready.card.add(0, 0, &data, &mut ready.slots).unwrap();
    assert_eq!(ready.shown(0), Err(25), "not sealed");
    assert_eq!(ready.seal(), Ok(0));
    assert_eq!(ready.shown(0).unwrap(), WHOLE_CASE);
    assert_eq!(ready.chosen(&[]).unwrap(), WHOLE_CASE);
    ready.card.read(&WHOLE_CASE_ACKNOWLEDGEMENT).unwrap();
    assert_eq!(ready.shown(0), Err(25));
    assert_eq!(ready.card.unreleased(), 0);
}

#[test]
fn opening_refuses_13_and_then_26() {
    let slots = vec![0; 64 * 34];
    let opened = |own, peer, limit, slots: &[u8]| Card::open(own, peer, limit, slots).1;
    assert_eq!(opened(2, 1, 34, &slots), None);
    assert_eq!(opened(2, 2, 34, &slots), None, "both IDs may be the same");
    for (own, peer) in [(0, 1), (2, 0), (0, 0)] {
        assert_eq!(opened(own, peer, 34, &slots), Some(13));
        assert_eq!(opened(own, peer, 33, &slots), Some(13), "before 26");
    }
    let limits = [
        (0, 26),
        (33, 26),
        (34, 0),
        (9_000, 0),
        (9_001, 26),
        (usize::MAX, 26),
    ];
    for (limit, expected) in limits {
        let slots = vec![0; 64 * limit.min(9_001)];
        assert_eq!(
            opened(2, 1, limit, &slots).unwrap_or(0),
            expected,
            "L {limit}"
        );
    }
    let slots = vec![0; 64 * 34 + 1];
    for (length, expected) in [
        (2_175, Some(26)),
        (2_176, None),
        (2_177, Some(26)),
        (0, Some(26)),
    ] {
        assert_eq!(
            opened(2, 1, 34, &slots[..length]),
            expected,
            "{length} bytes"
        );
    }
}

#[test]
fn a_refused_card_goes_on_with_zeros() {
    for (mut card, refusal) in [Card::open(2, 0, 34, &[]), Card::open(2, 1, 33, &[])] {
        assert!(refusal.is_some());
        assert_eq!(card, Card::starting_at(0, 0, 0, 0, 0));
        for number in 0..32 {
            assert_eq!(card.open_transaction(1, 0, 0), Ok(number));
        }
        assert_eq!(card.open_transaction(1, 0, 0), Err(20));
        let mut slots = vec![0; 64 * 34];
        for length in [0, 64 * 34] {
            let slots = &mut slots[..length];
            assert_eq!(card.add(0, 0, &[], slots), Err(26));
            assert_eq!(card.seal(slots), Err(26));
            assert_eq!(card.show_refusal(0, slots), Some(26));
            assert_eq!(card.choose_refusal(&[0; 10], slots), Some(26));
        }
        assert_eq!(card.read(&ack_frame(0, 0, 0, 0, 1)), Ok(()));
        assert_eq!(card.read(&ack_frame(2, 1, 0, 0, 1)), Err(3));
    }
}

#[test]
fn e8_and_e9_both_sides_of_the_limit() {
    let mut ready = Ready::new(34);
    let transaction = ready.open(2);
    assert_eq!(ready.add(transaction, 1), Err(22));
    assert_eq!(ready.add(transaction, 0), Ok(()));
    for (limit, expected) in [(65, Err(22)), (66, Ok(()))] {
        let mut ready = Ready::new(limit);
        let transaction = ready.open(2);
        ready.add(transaction, 1).unwrap();
        assert_eq!(ready.add(transaction, 0), expected, "L {limit}");
    }
    let mut ready = Ready::new(9_000);
    let transaction = ready.open(9);
    for (length, expected) in [
        (8_967, Err(22)),
        (65_536, Err(22)),
        (70_000, Err(22)),
        (8_966, Ok(())),
    ] {
        assert_eq!(ready.add(transaction, length), expected, "{length} bytes");
    }
}

/// Every byte of all slots, before and after each step.
#[test]
fn adding_writes_its_bytes_and_no_other() {
    let mut ready = Ready::new(100);
    ready.open(3);
    let mut expected = ready.slots.clone();
    let at = 100;
    ready.seal_frames(0, 1);
    expected[..34].copy_from_slice(&write_frame(1, 2, 0, &[message(0, &[])]));
    assert_eq!(ready.slots, expected);

    ready.add(0, 1).unwrap();
    let first = write_frame(1, 2, 1, &[message(0, &[7])]);
    expected[at..at + 35].copy_from_slice(&first);
    assert_eq!(ready.slots, expected);
    let open = ready.card.open_transaction(1, 0, 0);
    assert_eq!(
        ready.slots, expected,
        "opening a transaction writes nothing"
    );
    ready.add(open.unwrap(), 3).unwrap();
    let second = write_frame(1, 2, 1, &[message(0, &[7]), one(1, &[7; 3])]);
    expected[at..at + 69].copy_from_slice(&second);
    assert_eq!(ready.slots, expected);
    ready.seal().unwrap();
    assert_eq!(ready.slots, expected, "sealing writes nothing");
    assert_eq!(layout(ready.shown(1).unwrap()).unwrap().messages, 2);
    ready.acknowledge(0, 2);
    assert_eq!(ready.slots, expected);
}

fn message(transaction: u32, data: &[u8]) -> Message<'_> {
    Message {
        transaction,
        completion_address: 0,
        completion_value: 0,
        count: 3,
        data_address: 0,
        data,
    }
}

fn one(transaction: u32, data: &[u8]) -> Message<'_> {
    Message {
        count: 1,
        ..message(transaction, data)
    }
}

#[test]
fn a_slot_used_again_keeps_what_is_not_written() {
    let mut ready = Ready::new(42);
    let transaction = ready.open(100);
    ready.add(transaction, 8).unwrap();
    ready.seal().unwrap();
    ready.seal_frames(transaction, 63);
    ready.acknowledge(0, 64);
    ready.add(transaction, 1).unwrap();
    assert_eq!(ready.seal(), Ok(64));
    assert_eq!(ready.slots[34..42], [7; 8], "of frame 0");
    assert_eq!(ready.shown(64).unwrap().len(), 35);
    assert_eq!(ready.slots[4..6], [64, 0], "the new number");
}

#[test]
fn adding_refuses_in_order() {
    let mut ready = Ready::new(34);
    let bare = ready.open(0);
    let one = ready.open(1);
    let many = ready.open(1_000);
    let other = ready.open(5);
    assert_eq!((bare, one, many, other), (0, 1, 2, 3));
    ready.seal_frames(one, 1);
    // Never opened, opened later, and all added; each before 27 and 22.
    for transaction in [4, 31, 32, u32::MAX, one] {
        assert_eq!(ready.add(transaction, 0), Err(23));
        assert_eq!(ready.add(transaction, 1), Err(23));
    }
    assert_eq!(ready.add(bare, 1), Err(27));
    assert_eq!(ready.add(bare, 70_000), Err(27), "before 22");
    ready.seal_frames(many, 63);
    // 64 are sealed and not released: 21 comes after 23 and 27, and before 22.
    assert_eq!(ready.add(one, 0), Err(23));
    assert_eq!(ready.add(bare, 1), Err(27));
    assert_eq!(ready.add(many, 1), Err(21));
    assert_eq!(ready.add(many, 0), Err(21));
    let slots = ready.slots.clone();
    let card = ready.card.clone();
    // A wrong buffer comes before all, and changes nothing.
    let short = &mut ready.slots[1..];
    assert_eq!(ready.card.add(one, 0, &[], short), Err(26));
    assert_eq!(ready.card.add(many, 0, &[1], short), Err(26));
    assert_eq!(ready.card.seal(&short[..0]), Err(26));
    assert_eq!(ready.seal(), Err(24));
    assert_eq!(ready.slots, slots);
    assert_eq!(ready.card, card);
    ready.acknowledge(0, 1);
    assert_eq!(ready.add(many, 1), Err(22));
    assert_eq!(ready.add(many, 0), Ok(()));
    assert_eq!(ready.add(many, 0), Err(22), "the frame is full");
    assert_eq!(ready.seal(), Ok(64));
    assert_eq!(ready.seal(), Err(24));
}

#[test]
fn a_bare_transaction_takes_one_message() {
    let mut ready = Ready::new(100);
    let bare = ready.open(0);
    assert_eq!(ready.add(bare, 0), Ok(()));
    assert_eq!(ready.add(bare, 0), Err(23));
    assert_eq!(ready.add(bare, 1), Err(23), "before 27");
}

#[test]
fn thirty_two_transactions_from_the_lowest_unfinished_one() {
    let mut ready = Ready::new(34);
    for number in 0..32 {
        assert_eq!(ready.open(1), number);
    }
    assert_eq!(ready.card.open_transaction(1, 0, 0), Err(20));
    // All but the lowest are finished, which makes no room.
    for transaction in 1..32 {
        ready.seal_frames(transaction, 1);
    }
    ready.acknowledge(0, 31);
    assert_eq!(ready.card.unreleased(), 0);
    assert_eq!(ready.card.open_transaction(1, 0, 0), Err(20));
    ready.seal_frames(0, 1);
    assert_eq!(ready.card.open_transaction(1, 0, 0), Err(20));
    ready.acknowledge(31, 1);
    for number in 32..64 {
        assert_eq!(ready.open(1), number);
    }
    assert_eq!(ready.card.open_transaction(1, 0, 0), Err(20));
    assert_eq!(ready.add(0, 0), Err(23), "finished long ago");
}

/// Its last frame has to be released, not just those before it.
#[test]
fn a_transaction_is_not_finished_before_its_last_frame_is_released() {
    let mut ready = Ready::new(34);
    for number in 0..32 {
        assert_eq!(ready.open(1), number);
    }
    ready.seal_frames(1, 1);
    ready.seal_frames(0, 1);
    ready.acknowledge(0, 1);
    assert_eq!(ready.card.lowest_unreleased(), 1);
    assert_eq!(ready.card.open_transaction(1, 0, 0), Err(20));
    ready.acknowledge(1, 1);
    assert_eq!((ready.open(1), ready.open(1)), (32, 33));
    assert_eq!(ready.card.open_transaction(1, 0, 0), Err(20));
    // Neither sealed nor released.
    ready.add(2, 0).unwrap();
    ready.acknowledge(2, 1);
    assert_eq!(ready.card.open_transaction(1, 0, 0), Err(20));
    ready.seal().unwrap();
    ready.acknowledge(2, 1);
    assert_eq!(ready.open(1), 34);
}

/// Messages in three frames, of which the last is acknowledged first.
#[test]
fn a_transaction_is_finished_when_all_its_frames_are_released() {
    let mut ready = Ready::new(34);
    let transaction = ready.open(3);
    ready.seal_frames(transaction, 3);
    for number in [2, 0] {
        ready.acknowledge(number, 1);
        assert_eq!((ready.card.lowest, ready.card.opened), (0, 1));
    }
    ready.acknowledge(1, 1);
    assert_eq!((ready.card.lowest, ready.card.opened), (1, 0));
}

/// Transaction 0 is unfinished all the while, so that transaction 1 stays in the window with
/// its last frame's number, 0. That number is given again to a frame that is not released.
#[test]
fn a_frame_number_given_again_decides_nothing() {
    let mut ready = Ready::new(34);
    for count in [1, 1, u16::MAX, 2] {
        ready.open(count);
    }
    ready.seal_frames(1, 1);
    ready.acknowledge(0, 1);
    assert_eq!(ready.card.finished, BTreeSet::from([1]));
    for _ in 0..u16::MAX {
        ready.seal_frames(2, 1);
        ready.acknowledge(ready.card.lowest_unreleased(), 1);
    }
    assert_eq!(ready.card.finished, BTreeSet::from([1, 2]));
    assert_eq!(ready.card.next_number(), 0);
    ready.seal_frames(3, 2);
    ready.acknowledge(1, 1);
    assert_eq!(ready.shown(0).map(<[u8]>::len), Ok(34), "unreleased");
    assert_eq!(ready.card.finished, BTreeSet::from([1, 2]));
    ready.seal_frames(0, 1);
    ready.acknowledge(0, 3);
    assert_eq!((ready.card.lowest, ready.card.opened), (4, 0));
}

#[test]
fn frames_are_released_in_order() {
    let mut ready = Ready::new(34);
    let transaction = ready.open(100);
    ready.seal_frames(transaction, 3);
    ready.acknowledge(1, 1);
    assert_eq!(ready.card.unreleased(), 3);
    assert_eq!(ready.shown(1), Err(25), "acknowledged, not held");
    assert!(ready.shown(0).is_ok() && ready.shown(2).is_ok());
    assert_eq!(ready.chosen(&[]).unwrap()[4], 0, "the oldest held");
    ready.acknowledge(0, 1);
    assert_eq!(ready.card.unreleased(), 1);
    assert_eq!(ready.card.lowest_unreleased(), 2);
    assert_eq!(ready.chosen(&[]).unwrap()[4], 2);
    ready.acknowledge(0, 2);
    assert_eq!(
        ready.card.unreleased(),
        1,
        "released ones are not acknowledged again"
    );
    // The one being built is not sealed, and what is ahead is not there.
    ready.add(transaction, 0).unwrap();
    ready.acknowledge(3, 255);
    assert_eq!(ready.card.unreleased(), 1);
    ready.acknowledge(65_530, 255);
    assert_eq!(ready.card.unreleased(), 0);
    assert_eq!(ready.seal(), Ok(3));
    assert!(ready.shown(3).is_ok());
}

#[test]
fn a_range_goes_round() {
    let mut card = Card::starting_at(2, 1, 34, 65_534, u32::MAX);
    let mut slots = vec![FILL; 64 * 34];
    assert_eq!(card.open_transaction(3, 0, 0), Ok(u32::MAX));
    assert_eq!(card.open_transaction(3, 0, 0), Ok(0));
    for (transaction, number) in [(u32::MAX, 65_534), (0, 65_535), (0, 0), (u32::MAX, 1)] {
        card.add(transaction, 0, &[], &mut slots).unwrap();
        assert_eq!(card.seal(&slots), Ok(number));
    }
    assert!(card.show(65_535, &slots).len() == 34 && card.show(1, &slots).len() == 34);
    card.read(&ack_frame(2, 1, 0, 65_535, 2)).unwrap();
    assert_eq!(card.unreleased(), 4);
    card.read(&ack_frame(2, 1, 0, 65_534, 1)).unwrap();
    assert_eq!((card.unreleased(), card.lowest_unreleased()), (1, 1));
    assert_eq!(card.choose(&[], &slots)[4..6], [1, 0]);
}

#[test]
fn reading_refuses_by_1_to_5_only() {
    let mut ready = Ready::new(34);
    let transaction = ready.open(9);
    ready.seal_frames(transaction, 2);
    let before = ready.card.clone();
    let good = ack_frame(2, 1, 40_000, 0, 1);
    let mut cases = vec![
        (good[..9].to_vec(), 1),
        (vec![0; 9_001], 2),
        (Vec::new(), 1),
    ];
    for (place, value, refusal) in [(0, 1, 3), (2, 2, 3), (9, 2, 4), (9, 128, 4), (9, 1, 5)] {
        let mut frame = good.to_vec();
        frame[place] = value;
        cases.push((frame, refusal));
    }
    for (frame, refusal) in cases {
        assert_eq!(ready.card.read(&frame), Err(refusal));
        assert_eq!(ready.card, before);
    }
    // Count 0 acknowledges nothing, whatever the start.
    let mut nothing = good;
    nothing[8] = 0;
    assert_eq!(ready.card.read(&nothing), Ok(()));
    assert_eq!(ready.card, before);
    // A frame with messages acknowledges as well, unless its layout is bad.
    let mut frame = write_frame(2, 1, 9, &[message(77, &[1, 2, 3])]);
    frame[6] = 1;
    frame[8] = 1;
    assert_eq!(ready.card.read(&frame[..36]), Err(5));
    assert_eq!(ready.card, before);
    assert_eq!(ready.card.read(&frame), Ok(()));
    assert_eq!(ready.shown(1), Err(25));
    assert_eq!(ready.card.read(&good), Ok(()));
    assert_eq!(ready.card.unreleased(), 0);
}

#[test]
fn a_lent_acknowledgement_goes_out_first() {
    let mut ready = Ready::new(34);
    let transaction = ready.open(9);
    let lent = [0xee; 11];
    for length in [0, 9, 11] {
        assert_eq!(ready.chosen(&lent[..length]), Err(25), "nothing held");
    }
    assert_eq!(ready.chosen(&lent[..10]).unwrap(), lent[..10]);
    ready.seal_frames(transaction, 1);
    for length in [0, 9, 11] {
        assert_eq!(ready.chosen(&lent[..length]).unwrap(), ready.slots[..34]);
    }
    // A part of its own buffer and no copy; 26 comes first all the same.
    let part = ready.card.choose(&lent[1..], &ready.slots);
    assert!(std::ptr::eq(part, &lent[1..]));
    let part = ready.card.choose(&[], &ready.slots);
    assert!(std::ptr::eq(part, &ready.slots[..34]));
    let short = &ready.slots[1..];
    assert_eq!(ready.card.choose_refusal(&lent[1..], short), Some(26));
    assert!(ready.card.choose(&lent[1..], short).is_empty());
    assert_eq!(ready.card.show_refusal(0, short), Some(26));
    assert!(ready.card.show(0, short).is_empty());
}
