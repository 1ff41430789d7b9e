//! Lists of calls on a table: what demand 3 claims for each of its cards, and that no card
//! sees what the others do.

use crate::host::Answer;
use crate::rng::Rng;
use crate::table::{Region, Registered};
use std::collections::BTreeMap;

pub mod isolation;
pub mod several;

/// How often lists have met what they are to meet, so that a test can tell lists with real
/// content from some about next to nothing.
#[derive(Clone, Debug, Default, PartialEq, Eq)]
pub struct Met(BTreeMap<&'static str, u64>);

impl Met {
    /// Counts something that may have been met.
    pub fn count(&mut self, what: &'static str, met: bool) {
        *self.0.entry(what).or_default() += u64::from(met);
    }

    /// Adds what another list has met.
    pub fn add(&mut self, other: &Met) {
        for (what, times) in &other.0 {
            *self.0.entry(what).or_default() += times;
        }
    }

    /// Which of these were never met.
    pub fn missed(&self, all: &[&'static str]) -> Vec<&'static str> {
        let met = |what: &&str| self.0.get(*what).is_some_and(|times| *times > 0);
        all.iter().copied().filter(|what| !met(what)).collect()
    }
}

/// A region of memory that no card has and that often touches one that a card has, unless
/// none is found soon.
fn free_region(
    rng: &mut Rng,
    cards: &[Registered],
    memory: usize,
    lengths: &[u64],
) -> Option<Region> {
    (0..20).find_map(|_| {
        let length = rng.pick(lengths);
        let last = (memory as u64).checked_sub(length)?;
        let first = match cards {
            [_, ..] if rng.chance(1, 2) => rng.pick(cards).region.bytes().end as u64,
            _ => rng.below(last as usize + 1) as u64,
        };
        let region = Region { first, length };
        let overlaps = |card: &Registered| card.region.overlaps(region);
        (region.fits(memory as u64) && !cards.iter().any(overlaps)).then_some(region)
    })
}

fn is_accepted(answer: Answer) -> bool {
    matches!(answer, Answer::Accepted { .. })
}

/// Whether two cards' regions touch.
fn some_touch(cards: &[Registered]) -> bool {
    let mut pairs = cards.windows(2);
    pairs.any(|pair| pair[0].region.bytes().end == pair[1].region.bytes().start)
}
