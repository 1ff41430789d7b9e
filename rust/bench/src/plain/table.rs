//! A table of sixteen as one writes it for speed: a source leads to its place by one load
//! from a map of all sources, and the place's pair, which knows both IDs, asks for them
//! itself. It gives the same answers as the reference, which a test beside it compares.

use super::host::{Answer, FRAME_HEADER, Host, LONGEST_FRAME};

const PLACES: usize = 16;
/// What the map says of a source that is not registered.
const NOWHERE: u8 = PLACES as u8;

/// A card's pair and region.
struct Place {
    pair: Host,
    /// The region's first byte, and the first one behind it.
    first: u64,
    end: u64,
}

impl Place {
    /// Its region has no byte in common with any other.
    fn free() -> Place {
        Place {
            pair: Host::starting_at(0, 0, 0, 0),
            first: 0,
            end: 0,
        }
    }
}

/// A table of up to sixteen cards.
pub struct Table {
    own: u16,
    /// Bit i is set if place i is free.
    free: u16,
    places: [Place; PLACES],
    /// By source.
    map: Box<[u8; 1 << 16]>,
}

impl Table {
    /// A table without cards, and refusal 13 if our ID is 0.
    pub fn open(own: u16) -> (Table, Option<u8>) {
        let table = Table {
            own,
            free: u16::MAX,
            places: std::array::from_fn(|_| Place::free()),
            map: Box::new([NOWHERE; 1 << 16]),
        };
        (table, (own == 0).then_some(13))
    }

    /// Gives a card the region of `length` bytes from `first` on, in a memory of `memory`.
    pub fn register(
        &mut self,
        source: u16,
        first: u64,
        length: u64,
        memory: u64,
    ) -> Result<(), u8> {
        if self.own == 0 || source == 0 {
            return Err(13);
        }
        if self.map[usize::from(source)] != NOWHERE {
            return Err(30);
        }
        let end = match first.checked_add(length) {
            Some(end) if length > 0 && end <= memory => end,
            _ => return Err(31),
        };
        let mut places = self.places.iter();
        if places.any(|place| first < place.end && place.first < end) {
            return Err(29);
        }
        let index = self.free.trailing_zeros();
        let Some(place) = self.places.get_mut(index as usize) else {
            return Err(28);
        };
        *place = Place {
            pair: Host::starting_at(self.own, source, 0, 0),
            first,
            end,
        };
        self.free &= self.free - 1;
        self.map[usize::from(source)] = index as u8;
        Ok(())
    }

    /// Removes a card.
    pub fn remove(&mut self, source: u16) -> Result<(), u8> {
        let index = self.map[usize::from(source)];
        let Some(place) = self.places.get_mut(usize::from(index)) else {
            return Err(3);
        };
        *place = Place::free();
        self.free |= 1 << index;
        self.map[usize::from(source)] = NOWHERE;
        Ok(())
    }

    /// Answers any bytes at all, with any front part of the memory.
    #[inline]
    pub fn receive(&mut self, frame: &[u8], memory: &mut [u8]) -> Answer {
        let Some(&[_, _, low, high]) = frame.first_chunk() else {
            return self.refused(frame, 3);
        };
        let index = self.map[usize::from(u16::from_le_bytes([low, high]))];
        let Some(place) = self.places.get_mut(usize::from(index)) else {
            return self.refused(frame, 3);
        };
        let Some(region) = memory.get_mut(place.first as usize..place.end as usize) else {
            return self.refused(frame, 31);
        };
        place.pair.receive(frame, region)
    }

    /// The refusal of a frame that no pair sees: this one, unless an earlier one is due.
    #[cold]
    fn refused(&self, frame: &[u8], number: u8) -> Answer {
        let number = match frame.first_chunk() {
            _ if frame.len() < FRAME_HEADER => 1,
            _ if frame.len() > LONGEST_FRAME => 2,
            Some(destination) if u16::from_le_bytes(*destination) != self.own => 3,
            _ => number,
        };
        Answer::Refused { number, place: 0 }
    }

    /// The acknowledgement that an answer to a frame of this source calls for.
    pub fn acknowledgement(
        &self,
        answer: Answer,
        source: u16,
        next_number: u16,
    ) -> Option<[u8; FRAME_HEADER]> {
        let (Answer::Accepted { number, run, .. } | Answer::Again { number, run }) = answer else {
            return None;
        };
        let mut frame = [0; FRAME_HEADER];
        frame[0..2].copy_from_slice(&source.to_le_bytes());
        frame[2..4].copy_from_slice(&self.own.to_le_bytes());
        frame[4..6].copy_from_slice(&next_number.to_le_bytes());
        frame[6..8].copy_from_slice(&number.to_le_bytes());
        frame[8] = run;
        Some(frame)
    }
}
