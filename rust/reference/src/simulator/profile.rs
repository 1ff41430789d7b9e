//! What kind of list is made: the ends' setting, how bad the network is, and how long
//! transactions are kept unfinished.

use crate::demand::Setting;
use crate::ends::Start;
use crate::rng::Rng;

/// The kind of a list. Shares are in 100.
#[derive(Clone, Debug, PartialEq, Eq)]
pub struct Profile {
    /// The card's ID.
    pub card: u16,
    /// The host's ID.
    pub host: u16,
    /// The card's frame limit L.
    pub limit: usize,
    /// Bytes of the host's memory.
    pub memory: usize,
    /// The first numbers.
    pub start: Start,
    /// Hand-outs and acknowledgements of which no copy arrives.
    pub lost: usize,
    /// Those of which more than one does.
    pub repeated: usize,
    /// Arrivals out of turn.
    pub reorder: usize,
    /// Calls that bring an old copy.
    pub late: usize,
    /// Calls made to be refused or to do nothing.
    pub refused: usize,
    /// The first transaction is kept unfinished for this many frames, and those after
    /// it have many messages; 0 for neither.
    pub hold: usize,
    /// Transactions carry a block each, whose bytes lie in one row and are cut into messages
    /// anywhere.
    pub blocks: bool,
}

impl Profile {
    /// A kind for a short list; one in three starts near the end of the numbers.
    pub fn any(rng: &mut Rng) -> Profile {
        let near_the_end = rng.chance(1, 3);
        let card = rng.next_u16().max(1);
        Profile {
            card,
            host: if rng.chance(1, 8) {
                card
            } else {
                rng.next_u16().max(1)
            },
            limit: rng.pick(&[34, 35, 41, 42, 66, 67, 100, 100, 300, 1_500]),
            memory: rng.pick(&[4, 16, 40, 150, 300, 300, 1_000, 1_000]),
            start: if near_the_end {
                Start {
                    frame: u16::MAX - rng.below(100) as u16,
                    transaction: u32::MAX - rng.below(40) as u32,
                }
            } else {
                Start::default()
            },
            lost: rng.pick(&[0, 5, 20, 50, 90]),
            repeated: rng.pick(&[0, 10, 40]),
            reorder: rng.pick(&[0, 20, 100]),
            late: rng.pick(&[0, 3, 10]),
            refused: rng.pick(&[0, 5, 20]),
            hold: 0,
            blocks: false,
        }
    }

    /// A kind for a list in which all frame numbers wrap.
    pub fn long(hold: usize) -> Profile {
        Profile {
            card: 2,
            host: 1,
            limit: 66,
            memory: 6_000,
            start: Start::default(),
            lost: 4,
            repeated: 4,
            reorder: 20,
            late: 2,
            refused: 1,
            hold,
            blocks: false,
        }
    }

    /// Both ends' setting; the memory starts with the seed's bytes, or zeros for 0.
    pub fn setting(&self, seed: u64) -> Setting {
        Setting {
            card: self.card,
            host: self.host,
            limit: self.limit,
            memory: if seed == 0 {
                vec![0; self.memory]
            } else {
                Rng::new(seed).bytes(self.memory)
            },
            start: self.start,
        }
    }
}
