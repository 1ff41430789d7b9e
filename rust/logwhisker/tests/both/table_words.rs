//! What words are as a table, by their layout: our ID in word 0, sixteen sources, sixteen
//! first bytes, sixteen lengths, and the 67 words of each pair. IDs are the low 16 bits of
//! their word. Any words are a table, also with a source at two places, with regions that
//! overlap or with a pair of other IDs. The first place with the source counts then.

use logwhisker::raw::{HOST_WORDS, TABLE_WORDS};
use reference::host::{Answer, Host};
use reference::refusal;
use reference::table::MOST_CARDS;
use reference::wire::{FRAME_HEADER, FrameHeader, LONGEST_FRAME};

/// Where a table's words are.
pub const SOURCES: usize = 1;
/// See [`SOURCES`].
pub const FIRSTS: usize = SOURCES + MOST_CARDS;
/// See [`SOURCES`].
pub const SIZES: usize = FIRSTS + MOST_CARDS;
/// See [`SOURCES`].
pub const PAIRS: usize = SIZES + MOST_CARDS;

/// A place.
#[derive(Clone, Debug, PartialEq, Eq)]
pub struct Entry {
    /// 0 where it is free.
    pub source: u16,
    /// The region's first byte.
    pub first: u64,
    /// The region's length.
    pub size: u64,
    /// The pair.
    pub pair: Host,
}

/// The table that words are.
#[derive(Clone, Debug, PartialEq, Eq)]
pub struct Held {
    /// Our ID.
    pub own: u16,
    /// Sixteen places.
    pub entries: Vec<Entry>,
}

/// The words of the pair at a place.
pub fn pair_words(words: &[u64; TABLE_WORDS], place: usize) -> &[u64; HOST_WORDS] {
    let pair = words[PAIRS + HOST_WORDS * place..].first_chunk();
    pair.expect("there are sixteen")
}

impl Held {
    /// The table.
    pub fn from_words(words: &[u64; TABLE_WORDS]) -> Held {
        let entries = (0..MOST_CARDS).map(|place| Entry {
            source: words[SOURCES + place] as u16,
            first: words[FIRSTS + place],
            size: words[SIZES + place],
            pair: Host::from_words(pair_words(words, place)),
        });
        Held {
            own: words[0] as u16,
            entries: entries.collect(),
        }
    }

    fn place_of(&self, source: u16) -> Option<usize> {
        let mut entries = self.entries.iter();
        entries.position(|entry| entry.source == source)
    }

    /// The first place of a card. No card has ID 0, which is that of free places.
    pub fn card(&self, source: u16) -> Option<usize> {
        (source != 0).then(|| self.place_of(source)).flatten()
    }

    /// What registering is to do.
    pub fn register(&mut self, source: u16, first: u64, size: u64, memory: u64) -> Result<(), u8> {
        let (pair, refused) = Host::open(self.own, source);
        refused.map_or(Ok(()), Err)?;
        self.enter(pair, first, size, memory)
    }

    /// What adopting is to do.
    pub fn adopt(&mut self, pair: Host, first: u64, size: u64, memory: u64) -> Result<(), u8> {
        let (own, source) = pair.ids();
        if own != self.own || own == 0 || source == 0 {
            return Err(refusal::ID_ZERO);
        }
        self.enter(pair, first, size, memory)
    }

    fn enter(&mut self, pair: Host, first: u64, size: u64, memory: u64) -> Result<(), u8> {
        let source = pair.ids().1;
        if self.card(source).is_some() {
            return Err(refusal::REGISTERED);
        }
        let end = |first: u64, size: u64| u128::from(first) + u128::from(size);
        if size == 0 || end(first, size) > memory.into() {
            return Err(refusal::REGION_OUTSIDE);
        }
        // Each starts before the other's end. By that an empty region inside another has
        // bytes in common with it too, which no registered card and no free place has.
        let overlaps = |entry: &Entry| {
            u128::from(first) < end(entry.first, entry.size)
                && u128::from(entry.first) < end(first, size)
        };
        if self.entries.iter().any(overlaps) {
            return Err(refusal::REGION_OVERLAPS);
        }
        let place = self.place_of(0).ok_or(refusal::TABLE_FULL)?;
        self.entries[place] = Entry {
            source,
            first,
            size,
            pair,
        };
        Ok(())
    }

    /// What removing is to do.
    pub fn remove(&mut self, source: u16) -> Result<(), u8> {
        let place = self.card(source).ok_or(refusal::WRONG_ID)?;
        self.entries[place] = Entry {
            source: 0,
            first: 0,
            size: 0,
            pair: Host::starting_at(0, 0, 0, 0),
        };
        Ok(())
    }

    /// What receiving is to do.
    pub fn receive(&mut self, frame: &[u8], memory: &mut [u8]) -> Answer {
        match self.reach(frame, memory.len()) {
            Err(number) => Answer::Refused { number, place: 0 },
            Ok(place) => {
                let entry = &mut self.entries[place];
                let region = &mut memory[entry.first as usize..][..entry.size as usize];
                entry.pair.receive(frame, region)
            }
        }
    }

    /// The place that a frame is for.
    pub fn reach(&self, frame: &[u8], memory: usize) -> Result<usize, u8> {
        let header: &[u8; FRAME_HEADER] = frame.first_chunk().ok_or(refusal::FRAME_SHORT)?;
        if frame.len() > LONGEST_FRAME {
            return Err(refusal::FRAME_LONG);
        }
        let header = FrameHeader::from_bytes(header);
        let place = self.card(header.source);
        let place = place.filter(|_| header.destination == self.own);
        let place = place.ok_or(refusal::WRONG_ID)?;
        let entry = &self.entries[place];
        if u128::from(entry.first) + u128::from(entry.size) > memory as u128 {
            return Err(refusal::REGION_OUTSIDE);
        }
        Ok(place)
    }
}
