//! The premises of demand 3, told from the book: that nothing arrives too late, and
//! which writes the transactions of a list may make.

use crate::book::{Book, HandOut};
use crate::list::Call;
use std::ops::Range;

/// How many numbers late an arrival may be at most.
pub const LATEST: i64 = 32_768;

/// How late the call's arrival is just before it takes effect (D20, D21); it may be
/// negative. Of an acknowledgement its run's first number counts. None for other calls,
/// and for copies that do nothing.
pub fn lateness(book: &Book, call: &Call) -> Option<i64> {
    let (lowest, frame) = match call {
        Call::Receive(copy) => match book.hand_outs().get(*copy) {
            Some(HandOut::Frame(frame)) => (book.lowest_not_accepted(), *frame),
            _ => return None,
        },
        Call::Read(copy) => (
            book.lowest_not_released(),
            book.acknowledgements().get(*copy)?.first,
        ),
        _ => return None,
    };
    Some(lowest as i64 - frame as i64)
}

/// Whether the call brings nothing that is too late.
pub fn in_time(book: &Book, call: &Call) -> bool {
    lateness(book, call).is_none_or(|late| late <= LATEST)
}

/// A write that a list may not make; the numbers are the transactions' counts.
#[derive(Clone, Copy, Debug, PartialEq, Eq)]
pub enum Forbidden {
    /// A write falls outside memory.
    Outside(usize),
    /// The transaction writes a byte twice.
    Twice(usize),
    /// The two write a common byte and were unfinished together.
    Together(usize, usize),
}

/// Judges a list by the book after it. What a transaction writes is here all it writes in
/// the whole list, accepted or not, and its completion from its opening on. That asks for
/// more than G3f and G3g, which speak of the writes that were made: a list that passes here
/// keeps those as well.
pub fn writes_allowed(book: &Book, memory: usize) -> Result<(), Forbidden> {
    let mut written: Vec<Vec<Range<u64>>> = Vec::new();
    for transaction in book.transactions() {
        written.push(vec![span(transaction.terms.completion_address, 4)]);
    }
    for message in book.added() {
        written[message.transaction].push(span(message.address, message.data.len()));
    }
    for (index, spans) in written.iter_mut().enumerate() {
        if spans.iter().any(|span| span.end > memory as u64) {
            return Err(Forbidden::Outside(index));
        }
        spans.retain(|span| !span.is_empty());
        spans.sort_by_key(|span| span.start);
        if spans.windows(2).any(|pair| pair[0].end > pair[1].start) {
            return Err(Forbidden::Twice(index));
        }
    }
    for (later, transaction) in book.transactions().iter().enumerate() {
        for earlier in &transaction.unfinished_at_opening {
            if have_common_byte(&written[*earlier], &written[later]) {
                return Err(Forbidden::Together(*earlier, later));
            }
        }
    }
    Ok(())
}

fn span(address: u32, length: usize) -> Range<u64> {
    let start = u64::from(address);
    start..start + length as u64
}

fn have_common_byte(one: &[Range<u64>], other: &[Range<u64>]) -> bool {
    one.iter()
        .any(|a| other.iter().any(|b| a.start < b.end && b.start < a.end))
}
