//! The book's memory kept up from arrival to arrival, so that long lists can be
//! checked after every call. Each byte remembers which write it has, as the order of
//! opening and then of adding ranks them; only a higher one takes its place.

use crate::book::{Book, Expected};

/// Where a write stands among all: its transaction, then its message's index; the
/// completion comes after all data.
type Rank = (usize, u32);

/// The memory so far.
#[derive(Clone, Debug)]
pub struct KeptMemory {
    bytes: Vec<u8>,
    ranks: Vec<Option<Rank>>,
}

impl KeptMemory {
    /// Before the first arrival.
    pub fn new(starting_memory: &[u8]) -> KeptMemory {
        KeptMemory {
            bytes: starting_memory.to_vec(),
            ranks: vec![None; starting_memory.len()],
        }
    }

    /// Takes in what the book just said of an arrival.
    pub fn arrive(&mut self, book: &Book, expected: &Expected) {
        let Expected::Accepted {
            frame, completed, ..
        } = expected
        else {
            return;
        };
        for message in &book.frames()[*frame].messages {
            let rank = (message.transaction, message.index);
            self.write(message.address, &message.data, rank);
        }
        for transaction in completed {
            let terms = book.transactions()[*transaction].terms;
            let value = terms.completion_value.to_le_bytes();
            self.write(terms.completion_address, &value, (*transaction, u32::MAX));
        }
    }

    fn write(&mut self, address: u32, data: &[u8], rank: Rank) {
        for (at, byte) in (address as usize..).zip(data) {
            if at < self.bytes.len() && self.ranks[at] < Some(rank) {
                self.bytes[at] = *byte;
                self.ranks[at] = Some(rank);
            }
        }
    }

    /// The bytes.
    pub fn bytes(&self) -> &[u8] {
        &self.bytes
    }
}

#[cfg(test)]
mod tests {
    use super::*;
    use crate::ends::Start;
    use crate::list::Call;
    use crate::rng::Rng;

    /// Whatever the transactions write over each other and themselves, and in whatever
    /// order their frames arrive.
    #[test]
    fn it_is_the_books_memory_also_outside_the_premises() {
        let mut rng = Rng::new(5);
        for round in 0..300 {
            let start = rng.bytes(12);
            let mut book = Book::new(&start, Start::default());
            let mut kept = KeptMemory::new(&start);
            for transaction in 0..6 {
                let open = Call::Open {
                    count: 2,
                    address: rng.below(9) as u32,
                    value: rng.next_u32(),
                };
                book.enter(&open, false, &[]);
                // The first of its two messages; the second follows in any later frame.
                for number in [transaction, rng.below(transaction as usize + 1) as u32] {
                    let length = rng.between(0, 3);
                    if book.transactions()[number as usize].added == 2 {
                        continue;
                    }
                    let add = Call::Add {
                        transaction: number,
                        address: rng.below(10) as u32,
                        data: rng.bytes(length),
                    };
                    book.enter(&add, false, &[]);
                }
                book.enter(&Call::Seal, false, &[]);
                book.enter(&Call::Show(transaction as u16), false, &[]);
            }
            for _ in 0..12 {
                let expected = book.enter(&Call::Receive(rng.below(6)), false, &[]);
                kept.arrive(&book, &expected);
                assert_eq!(kept.bytes(), book.memory(), "round {round}");
            }
        }
    }
}
