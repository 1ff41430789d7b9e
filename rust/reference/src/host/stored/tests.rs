//! A text put down by hand, what is refused, and that reading and storing undo each other.

use super::*;
use crate::rng::Rng;
use crate::texts::{Damage, any_pair, damaged};

/// Own 1, peer 2, next 65,535 with 0 and 1 accepted ahead; transactions from 4,294,967,295
/// on, that one and 0 open, 1 closed.
const FIRST: &str = "0101000200ffff0600000000000000ffffffff04000000\n";
const NEAREST: &str = "ffffffff400000004433221103000100\n";
const FURTHER: &str = "00000000080000000900000002000100\n";

fn refusal_of(text: &str) -> Option<u8> {
    Host::restored(text.as_bytes()).1
}

#[test]
fn a_text_across_the_wrap() {
    let text = [FIRST, NEAREST, FURTHER].concat();
    let (host, refusal) = Host::restored(text.as_bytes());
    assert_eq!(refusal, None);
    assert_eq!(host.ids(), (1, 2));
    assert_eq!((host.next(), host.lowest()), (65_535, u32::MAX));
    assert!(host.is_accepted(0) && host.is_accepted(1) && !host.is_accepted(2));
    assert!(host.is_closed(1) && !host.is_closed(0));
    let nearest = &host.open_transactions()[&u32::MAX];
    assert_eq!(
        (nearest.terms.completion_address, nearest.terms.count),
        (64, 3)
    );
    assert_eq!(
        (nearest.terms.completion_value, nearest.received),
        (0x1122_3344, 1)
    );
    assert_eq!(host.text(), text);
}

#[test]
fn each_condition_is_refused() {
    let good = [FIRST, NEAREST, FURTHER].concat();
    let set = |at: usize, digit: &str| {
        let mut text = good.clone();
        text.replace_range(at..=at, digit);
        text
    };
    let wrong = [
        String::new(),
        // version, own ID, peer ID, bit 0 of either field
        set(1, "2"),
        set(3, "0"),
        set(7, "0"),
        set(15, "7"),
        set(39, "5"),
        // received 0 and as many as the count; count 0
        set(76, "0"),
        set(76, "3"),
        set(72, "0"),
        // outside the window, closed, repeated, out of order
        set(80, "2"),
        set(81, "1"),
        [FIRST, NEAREST, NEAREST].concat(),
        [FIRST, FURTHER, NEAREST].concat(),
        // upper case, a carriage return, and too little or too much
        set(10, "F"),
        set(46, "\r"),
        good[..112].to_string(),
        good.clone() + "\n",
        good.clone() + "0",
        [FIRST, NEAREST, FURTHER, FURTHER].concat(),
    ];
    for text in wrong {
        assert_eq!(refusal_of(&text), Some(refusal::BAD_TEXT), "{text:?}");
    }
    assert_eq!(refusal_of(&good), None);
    let (left, _) = Host::restored(b"");
    assert_eq!(left, Host::open(0, 0).0);
}

#[test]
fn order_of_refusals_and_the_buffer() {
    let (host, _) = Host::restored([FIRST, NEAREST].concat().as_bytes());
    let mut buffer = [b'.'; 82];
    assert_eq!(host.store(&mut buffer[..79]), Err(refusal::BUFFER_SHORT));
    assert_eq!(Host::open(0, 0).0.store(&mut []), Err(refusal::ID_ZERO));
    assert_eq!(
        Host::starting_at(1, 0, 0, 0).store(&mut []),
        Err(refusal::ID_ZERO)
    );
    assert_eq!(buffer, [b'.'; 82]);
    assert_eq!(host.store(&mut buffer), Ok(80));
    assert_eq!(&buffer[80..], b"..");
}

#[test]
fn texts_and_pairs_are_one_to_one() {
    let mut rng = Rng::new(4);
    let (mut read, mut refused) = (0, 0);
    for _ in 0..20_000 {
        let host = any_pair(&mut rng);
        let text = host.text();
        assert_eq!(Host::restored(text.as_bytes()), (host, None), "{text}");
        let damage = rng.pick(&Damage::ALL);
        let other = damaged(&mut rng, text.as_bytes(), damage);
        match Host::restored(&other) {
            (host, None) => {
                assert_eq!(host.text().as_bytes(), other);
                read += 1;
            }
            _ => refused += 1,
        }
    }
    assert!(
        read > 500 && refused > 500,
        "{read} read, {refused} refused"
    );
}
