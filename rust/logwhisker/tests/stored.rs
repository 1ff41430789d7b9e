//! Compares storing and reading back with the independent implementation: any words as a
//! host, buffers of any length around the text's, and texts that are good, damaged in one
//! place, cut, lengthened, in upper case or in another order, also across the end of the
//! numbers. `LW_SEED` and `LW_TEXTS` choose the seed and the number of texts.

use logwhisker::raw::HOST_WORDS;
use logwhisker::{Host as Proved, LONGEST_TEXT, Refusal};
use reference::host::Host;
use reference::rng::Rng;
use reference::settings::{count_from_env, number_from_env};
use reference::texts::{Damage, any_text, damaged};

fn rng() -> Rng {
    Rng::new(number_from_env("LW_SEED", 1))
}

/// Reads a text with both; gives whether it was read.
fn read(text: &[u8]) -> bool {
    let (expected, refusal) = Host::restored(text);
    let mut proved = Proved::from_words([0xa5a5_a5a5_a5a5_a5a5; HOST_WORDS]);
    let got = proved.restore(text);
    let refused = refusal.and_then(|number| Refusal::from_number(number.into()));
    let shown = text.escape_ascii();
    assert_eq!(got.err(), refused, "{shown}");
    assert_eq!(Host::from_words(proved.words()), expected, "{shown}");
    refused.is_none()
}

/// Stores with both into a buffer of this length.
fn store(words: [u64; HOST_WORDS], length: usize) -> Result<usize, Refusal> {
    let (mut expected, mut got) = (vec![b'.'; length], vec![b'.'; length]);
    let reference = Host::from_words(&words).store(&mut expected);
    let reference = reference.map_err(|number| Refusal::from_number(number.into()).expect("not 0"));
    let answer = Proved::from_words(words).store(&mut got);
    assert_eq!(answer, reference, "{length}: {words:x?}");
    assert_eq!(got, expected, "{length}: {words:x?}");
    answer
}

#[test]
fn texts_good_and_damaged() {
    let mut rng = rng();
    let mut met = [[0; 2]; Damage::ALL.len()];
    for _ in 0..count_from_env("LW_TEXTS", 60_000) {
        let text = any_text(&mut rng);
        assert!(read(text.as_bytes()));
        let index = rng.below(Damage::ALL.len());
        let other = damaged(&mut rng, text.as_bytes(), Damage::ALL[index]);
        met[index][usize::from(read(&other))] += 1;
    }
    // Some of those with another digit, or a line less, are good texts too.
    for (damage, [refused, good]) in Damage::ALL.iter().zip(met) {
        assert!(refused > 100, "{damage:?}: {refused} refused, {good} read");
    }
    assert!(met[0][1] > 100 && met[7][1] > 100, "{met:?}");
}

#[test]
fn every_byte_in_every_place_of_a_text() {
    let text = "0101000200ffff0600000000000000ffffffff04000000\n\
                ffffffff400000004433221103000100\n00000000080000000900000002000100\n";
    let (mut good, mut refused) = (0, 0);
    for place in 0..text.len() {
        let mut others = 0;
        for byte in 0..=255 {
            let mut other = text.as_bytes().to_vec();
            other[place] = byte;
            others += u32::from(read(&other));
        }
        // One of them is the text itself.
        assert!((1..=16).contains(&others), "{others} at {place}");
        good += others;
        refused += 256 - others;
        read(&text.as_bytes()[..place]);
        read(&text.as_bytes()[place..]);
    }
    assert!(
        good > 500 && refused > 20_000,
        "{good} read, {refused} refused"
    );
}

#[test]
fn any_words_are_stored_alike() {
    let mut rng = rng();
    let (mut stored, mut read_back) = (0, 0);
    for _ in 0..count_from_env("LW_TEXTS", 60_000) {
        let mut words: [u64; HOST_WORDS] = std::array::from_fn(|_| rng.next_u64());
        // Free entries, and IDs of 0, would else hardly be met.
        for entry in 0..32 {
            if rng.chance(1, 3) {
                words[4 + 2 * entry] &= 0xffff;
            }
        }
        words[0] &= rng.pick(&[!0, !0, !0xffff, !0xffff_0000]);
        let whole = store(words, LONGEST_TEXT);
        let near = whole.unwrap_or(0);
        for length in [0, near.saturating_sub(1), near, near + 1, rng.below(1_200)] {
            store(words, length).ok();
        }
        if let Ok(length) = whole {
            let mut text = vec![0; length];
            Proved::from_words(words)
                .store(&mut text)
                .expect("there is room");
            read_back += u64::from(read(&text));
            stored += 1;
        }
    }
    assert!(stored > 1_000, "{stored} stored, {read_back} read back");
}

#[test]
fn what_was_stored_comes_back() {
    let mut rng = rng();
    for _ in 0..20_000 {
        let text = any_text(&mut rng);
        let host = Proved::from_text(text.as_bytes()).expect("it is good");
        let mut buffer = [b'.'; LONGEST_TEXT];
        let length = host.store(&mut buffer).expect("there is room");
        assert_eq!(&buffer[..length], text.as_bytes());
        assert_eq!(buffer[length..], [b'.'; LONGEST_TEXT][length..]);
    }
}
