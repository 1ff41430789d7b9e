//! A host's state as the 67 words that callers of the library keep: any words are a state,
//! and bits without a meaning are not looked at.

use super::{Host, Open, Terms};

/// Words of a host.
pub const HOST_WORDS: usize = 67;

impl Host {
    /// The state that these words are.
    pub fn from_words(words: &[u64; HOST_WORDS]) -> Host {
        let (own, peer, next) = (
            words[0] as u16,
            (words[0] >> 16) as u16,
            (words[0] >> 32) as u16,
        );
        let lowest = words[2] as u32;
        let mut host = Host::starting_at(own, peer, next, lowest);
        let marked = (0..64).filter(|bit| words[1] >> bit & 1 == 1);
        host.accepted = marked.map(|bit| next.wrapping_add(bit)).collect();
        let closed = (0..32).filter(|bit| words[2] >> (32 + bit) & 1 == 1);
        host.closed = closed.map(|bit| lowest.wrapping_add(bit)).collect();
        for number in (0..32).map(|step| lowest.wrapping_add(step)) {
            let at = 3 + 2 * (number as usize % 32);
            let open = Open {
                terms: Terms {
                    count: words[at + 1] as u16,
                    completion_address: words[at] as u32,
                    completion_value: (words[at] >> 32) as u32,
                },
                received: (words[at + 1] >> 16) as u16,
            };
            // A place of which nothing was received is free, whatever else it says.
            if open.received > 0 {
                host.open.insert(number, open);
            }
        }
        host
    }

    /// Words that are this state, with 0 in all that has no meaning.
    pub fn to_words(&self) -> [u64; HOST_WORDS] {
        let mut words = [0; HOST_WORDS];
        words[0] = u64::from(self.own) | u64::from(self.peer) << 16 | u64::from(self.next) << 32;
        for number in &self.accepted {
            words[1] |= 1 << number.wrapping_sub(self.next);
        }
        words[2] = self.lowest.into();
        for number in &self.closed {
            words[2] |= 1 << (32 + number.wrapping_sub(self.lowest));
        }
        for (number, open) in &self.open {
            let at = 3 + 2 * (*number as usize % 32);
            let Terms {
                count,
                completion_address,
                completion_value,
            } = open.terms;
            words[at] = u64::from(completion_address) | u64::from(completion_value) << 32;
            words[at + 1] = u64::from(count) | u64::from(open.received) << 16;
        }
        words
    }
}
