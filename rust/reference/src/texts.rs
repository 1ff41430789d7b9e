//! Pairs that can be stored, and texts with something wrong: for tests of storing and
//! reading back, here and against the library.

use crate::host::Host;
use crate::rng::Rng;

/// A line of digits without its newline.
fn digits(bytes: &[u8]) -> String {
    bytes.iter().map(|byte| format!("{byte:02x}")).collect()
}

/// Any pair that can be stored, often with numbers near the end of their space.
pub fn any_pair(rng: &mut Rng) -> Host {
    let text = any_text(rng);
    let (host, refusal) = Host::restored(text.as_bytes());
    assert_eq!(refusal, None, "{text}");
    host
}

/// The text of such a pair, put together line by line.
pub fn any_text(rng: &mut Rng) -> String {
    let near_end = rng.chance(1, 2);
    let lowest = match near_end {
        true => u32::MAX - rng.below(32) as u32,
        false => rng.next_u32(),
    };
    let next = match near_end {
        true => u16::MAX - rng.below(64) as u16,
        false => rng.next_u16(),
    };
    let (own, peer) = (rng.next_u16().max(1), rng.next_u16().max(1));
    let marks = rng.next_u64() & rng.pick(&[0, 6, !1]);
    let closed = rng.next_u32() & rng.pick(&[0, 4, !1]);
    let mut first = vec![1];
    first.extend(own.to_le_bytes());
    first.extend(peer.to_le_bytes());
    first.extend(next.to_le_bytes());
    first.extend(marks.to_le_bytes());
    first.extend(lowest.to_le_bytes());
    first.extend(closed.to_le_bytes());
    let mut text = digits(&first) + "\n";
    let sparse = rng.pick(&[1, 4, 32]);
    for past in (0..32).filter(|past| closed >> past & 1 == 0) {
        if !rng.chance(1, sparse) {
            continue;
        }
        let other = 2 + rng.next_u16() / 2;
        let count = rng.pick(&[2, 3, 256, 65_535, other]);
        let received = 1 + rng.below(usize::from(count) - 1) as u16;
        let mut line = lowest.wrapping_add(past).to_le_bytes().to_vec();
        line.extend(rng.bytes(8));
        line.extend(count.to_le_bytes());
        line.extend(received.to_le_bytes());
        text += &(digits(&line) + "\n");
    }
    text
}

/// What can be wrong with a text.
#[derive(Clone, Copy, Debug, PartialEq, Eq)]
pub enum Damage {
    /// A digit is another digit, which may make another good text.
    Digit,
    /// A character is any byte.
    Character,
    /// Cut off anywhere.
    Cut,
    /// Something behind it.
    Lengthened,
    /// A digit in upper case, if it has a letter.
    UpperCase,
    /// Two of its lines change places.
    Swapped,
    /// A line stands twice.
    Repeated,
    /// A line is left out, which may make another good text.
    LeftOut,
}

impl Damage {
    /// All of them.
    pub const ALL: [Damage; 8] = [
        Damage::Digit,
        Damage::Character,
        Damage::Cut,
        Damage::Lengthened,
        Damage::UpperCase,
        Damage::Swapped,
        Damage::Repeated,
        Damage::LeftOut,
    ];
}

/// The text with this done to it in one place.
pub fn damaged(rng: &mut Rng, text: &[u8], damage: Damage) -> Vec<u8> {
    let mut text = text.to_vec();
    let place = rng.below(text.len().max(1));
    let mut lines: Vec<Vec<u8>> = text
        .split_inclusive(|byte| *byte == b'\n')
        .map(<[u8]>::to_vec)
        .collect();
    let line = rng.below(lines.len().max(1));
    match damage {
        Damage::Digit => text[place] = rng.pick(b"0123456789abcdef"),
        Damage::Character => text[place] = rng.below(256) as u8,
        Damage::Cut => text.truncate(place),
        Damage::Lengthened => {
            let length = rng.pick(&[1, 1, 33, 66]);
            text.extend((0..length).map(|_| rng.pick(b"0f\n\r ")));
        }
        Damage::UpperCase => {
            if let Some(letter) = text[place..]
                .iter_mut()
                .find(|byte| byte.is_ascii_lowercase())
            {
                letter.make_ascii_uppercase();
            }
        }
        Damage::Swapped => {
            let other = rng.below(lines.len());
            lines.swap(line, other);
            return lines.concat();
        }
        Damage::Repeated => {
            lines.insert(line, lines[line].clone());
            return lines.concat();
        }
        Damage::LeftOut => {
            lines.remove(line);
            return lines.concat();
        }
    }
    text
}
