//! A host for up to sixteen cards that share one memory. Each card has a pair of its own
//! and a region of the memory, and a frame is answered by its source's pair as if the
//! region were all there is. What a call is refused leaves everything as it was.

use crate::host::{Answer, Host};
use crate::refusal;
use crate::wire::{FRAME_HEADER, FrameHeader, LONGEST_FRAME};
use std::collections::BTreeMap;
use std::ops::Range;

/// Cards of a table at most.
pub const MOST_CARDS: usize = 16;

/// A part of memory. Any two numbers are one, also with an end past all 64-bit numbers.
#[derive(Clone, Copy, Debug, PartialEq, Eq, Hash)]
pub struct Region {
    /// Its first byte.
    pub first: u64,
    /// How many bytes it has.
    pub length: u64,
}

impl Region {
    /// Where its bytes are. The sum takes more than 64 bits.
    pub fn bytes(self) -> Range<u128> {
        let first = u128::from(self.first);
        first..first + u128::from(self.length)
    }

    /// Whether it has a byte and memory has them all.
    pub fn fits(self, memory: u64) -> bool {
        self.length > 0 && self.bytes().end <= u128::from(memory)
    }

    /// Whether some byte is in both. Regions that only touch have none in common.
    pub fn overlaps(self, other: Region) -> bool {
        let (one, two) = (self.bytes(), other.bytes());
        one.start.max(two.start) < one.end.min(two.end)
    }

    /// Its bytes of a memory, if the memory does not end before it.
    pub fn of(self, memory: &mut [u8]) -> Option<&mut [u8]> {
        let Range { start, end } = self.bytes();
        if end > memory.len() as u128 {
            return None;
        }
        memory.get_mut(start as usize..end as usize)
    }
}

/// A card that is registered.
#[derive(Clone, Copy, Debug, PartialEq, Eq)]
pub struct Registered {
    /// Its ID.
    pub source: u16,
    /// Where it writes.
    pub region: Region,
}

#[derive(Clone, Debug, PartialEq, Eq)]
struct Place {
    pair: Host,
    region: Region,
}

/// The table.
#[derive(Clone, Debug, PartialEq, Eq)]
pub struct Table {
    own: u16,
    /// By source.
    places: BTreeMap<u16, Place>,
}

impl Table {
    /// A table without cards, and refusal 13 if our ID is 0: it then has ID 0.
    pub fn open(own: u16) -> (Table, Option<u8>) {
        let places = BTreeMap::new();
        let refusal = (own == 0).then_some(refusal::ID_ZERO);
        (Table { own, places }, refusal)
    }

    /// Gives a card a region of a memory of so many bytes, and starts a fresh pair.
    pub fn register(&mut self, source: u16, region: Region, memory: u64) -> Result<(), u8> {
        let (pair, refusal) = Host::open(self.own, source);
        refusal.map_or(Ok(()), Err)?;
        self.enter(pair, region, memory)
    }

    /// As registering, for a pair that goes on: its peer is the source, and refusal 13 is
    /// also given where it is not ours.
    pub fn adopt(&mut self, pair: &Host, region: Region, memory: u64) -> Result<(), u8> {
        let (own, source) = pair.ids();
        if self.own == 0 || source == 0 || own != self.own {
            return Err(refusal::ID_ZERO);
        }
        self.enter(pair.clone(), region, memory)
    }

    fn enter(&mut self, pair: Host, region: Region, memory: u64) -> Result<(), u8> {
        let (_, source) = pair.ids();
        if self.places.contains_key(&source) {
            return Err(refusal::REGISTERED);
        }
        if !region.fits(memory) {
            return Err(refusal::REGION_OUTSIDE);
        }
        let mut places = self.places.values();
        if places.any(|place| place.region.overlaps(region)) {
            return Err(refusal::REGION_OVERLAPS);
        }
        if self.places.len() >= MOST_CARDS {
            return Err(refusal::TABLE_FULL);
        }
        self.places.insert(source, Place { pair, region });
        Ok(())
    }

    /// Removes a card. Memory keeps what it has written.
    pub fn remove(&mut self, source: u16) -> Result<(), u8> {
        let removed = self.places.remove(&source);
        removed.map(|_| ()).ok_or(refusal::WRONG_ID)
    }

    /// A copy of a card's pair, which stays in the table.
    pub fn take(&self, source: u16) -> Result<Host, u8> {
        let place = self.places.get(&source);
        place
            .map(|place| place.pair.clone())
            .ok_or(refusal::WRONG_ID)
    }

    /// Answers any bytes at all, with any front part of the memory.
    pub fn receive(&mut self, frame: &[u8], memory: &mut [u8]) -> Answer {
        let found = self.find(frame, memory);
        match found {
            Ok((pair, region)) => pair.receive(frame, region),
            Err(number) => Answer::Refused { number, place: 0 },
        }
    }

    /// The pair that a frame is for, and its region.
    fn find<'a>(
        &'a mut self,
        frame: &[u8],
        memory: &'a mut [u8],
    ) -> Result<(&'a mut Host, &'a mut [u8]), u8> {
        let header = frame.first_chunk().ok_or(refusal::FRAME_SHORT)?;
        if frame.len() > LONGEST_FRAME {
            return Err(refusal::FRAME_LONG);
        }
        let header = FrameHeader::from_bytes(header);
        if header.destination != self.own {
            return Err(refusal::WRONG_ID);
        }
        let place = self.places.get_mut(&header.source);
        let place = place.ok_or(refusal::WRONG_ID)?;
        let region = place.region.of(memory);
        Ok((&mut place.pair, region.ok_or(refusal::REGION_OUTSIDE)?))
    }

    /// The acknowledgement that an answer to a frame of this source calls for, as
    /// [`Host::acknowledgement`].
    pub fn acknowledgement(
        &self,
        answer: Answer,
        source: u16,
        next_number: u16,
    ) -> Option<[u8; FRAME_HEADER]> {
        Host::starting_at(self.own, source, 0, 0).acknowledgement(answer, next_number)
    }

    /// Our ID, or 0 after a refused opening.
    pub fn own(&self) -> u16 {
        self.own
    }

    /// The cards by the first byte of their regions.
    pub fn cards(&self) -> Vec<Registered> {
        let places = self.places.iter();
        let mut cards: Vec<Registered> = places
            .map(|(&source, &Place { region, .. })| Registered { source, region })
            .collect();
        cards.sort_by_key(|card| card.region.first);
        cards
    }
}

/// The source that a frame names, if it is long enough to.
pub fn source_of(frame: &[u8]) -> Option<u16> {
    let bytes = frame.get(2..4)?;
    Some(u16::from_le_bytes([bytes[0], bytes[1]]))
}

#[cfg(test)]
mod tests;
