//! A host's pair as a text that outlives a restart (R1 to R8): a line for the pair itself,
//! then one for each open transaction. It reads a text line by line, each as a whole.

use super::{Host, Open, Terms};
use crate::refusal;

/// What the first line begins with.
const VERSION: u8 = 1;

impl Host {
    /// Stores the pair at the start of a buffer and gives the text's length (R5, R6).
    pub fn store(&self, buffer: &mut [u8]) -> Result<usize, u8> {
        if self.own == 0 || self.peer == 0 {
            return Err(refusal::ID_ZERO);
        }
        let text = self.text();
        let place = buffer.get_mut(..text.len());
        let place = place.ok_or(refusal::BUFFER_SHORT)?;
        place.copy_from_slice(text.as_bytes());
        Ok(text.len())
    }

    /// The pair's text (R2 to R4), of any state.
    pub fn text(&self) -> String {
        let mut first = vec![VERSION];
        first.extend(self.own.to_le_bytes());
        first.extend(self.peer.to_le_bytes());
        first.extend(self.next.to_le_bytes());
        first.extend(self.marks().to_le_bytes());
        first.extend(self.lowest.to_le_bytes());
        first.extend(self.closed_marks().to_le_bytes());
        let open = self.open_in_order().into_iter();
        let open = open.map(|(number, open)| line_of(number, &open));
        std::iter::once(first)
            .chain(open)
            .map(|bytes| spelt(&bytes))
            .collect()
    }

    /// The pair that a text is of (R7), or what a refused opening leaves (R8).
    pub fn restored(text: &[u8]) -> (Host, Option<u8>) {
        match read(text) {
            Some(host) => (host, None),
            None => (Host::open(0, 0).0, Some(refusal::BAD_TEXT)),
        }
    }
}

fn line_of(number: u32, open: &Open) -> Vec<u8> {
    let mut bytes = number.to_le_bytes().to_vec();
    bytes.extend(open.terms.completion_address.to_le_bytes());
    bytes.extend(open.terms.completion_value.to_le_bytes());
    bytes.extend(open.terms.count.to_le_bytes());
    bytes.extend(open.received.to_le_bytes());
    bytes
}

fn spelt(bytes: &[u8]) -> String {
    let digits: String = bytes.iter().map(|byte| format!("{byte:02x}")).collect();
    digits + "\n"
}

/// The bytes of a line, if it has this many and all its digits are lower case.
fn bytes<const N: usize>(line: &[u8]) -> Option<[u8; N]> {
    let line = str::from_utf8(line)
        .ok()
        .filter(|line| line.len() == 2 * N)?;
    if !line
        .chars()
        .all(|digit| matches!(digit, '0'..='9' | 'a'..='f'))
    {
        return None;
    }
    let byte = |at: usize| u8::from_str_radix(&line[2 * at..2 * at + 2], 16).expect("two digits");
    Some(std::array::from_fn(byte))
}

/// The number of these bytes.
fn number(bytes: &[u8]) -> u64 {
    bytes
        .iter()
        .rev()
        .fold(0, |sum, byte| sum * 256 + u64::from(*byte))
}

fn read(text: &[u8]) -> Option<Host> {
    let lines = text.strip_suffix(b"\n")?;
    let mut lines = lines.split(|byte| *byte == b'\n');
    let mut host = read_first(bytes(lines.next()?)?)?;
    let mut past = -1;
    for line in lines {
        past = read_open(&mut host, bytes(line)?, past)?;
    }
    Some(host)
}

fn read_first(bytes: [u8; 23]) -> Option<Host> {
    let (own, peer) = (number(&bytes[1..3]) as u16, number(&bytes[3..5]) as u16);
    let (next, lowest) = (number(&bytes[5..7]) as u16, number(&bytes[15..19]) as u32);
    let (marks, closed) = (number(&bytes[7..15]), number(&bytes[19..23]));
    if bytes[0] != VERSION || own == 0 || peer == 0 || marks % 2 == 1 || closed % 2 == 1 {
        return None;
    }
    let mut host = Host::starting_at(own, peer, next, lowest);
    let marked = (0..64).filter(|bit| marks >> bit & 1 == 1);
    host.accepted = marked.map(|bit| next.wrapping_add(bit)).collect();
    let marked = (0..32).filter(|bit| closed >> bit & 1 == 1);
    host.closed = marked.map(|bit| lowest.wrapping_add(bit)).collect();
    Some(host)
}

/// Takes up an open transaction, and tells how far past the lowest it is, which has to be
/// further than the one before it.
fn read_open(host: &mut Host, bytes: [u8; 16], before: i64) -> Option<i64> {
    let transaction = number(&bytes[..4]) as u32;
    let open = Open {
        terms: Terms {
            count: number(&bytes[12..14]) as u16,
            completion_address: number(&bytes[4..8]) as u32,
            completion_value: number(&bytes[8..12]) as u32,
        },
        received: number(&bytes[14..]) as u16,
    };
    let past = (i64::from(transaction) - i64::from(host.lowest)).rem_euclid(1 << 32);
    let some = 1..i64::from(open.terms.count);
    if !some.contains(&i64::from(open.received))
        || !host.in_window(transaction)
        || host.is_closed(transaction)
        || past <= before
    {
        return None;
    }
    host.open.insert(transaction, open);
    Some(past)
}

#[cfg(test)]
mod tests;
