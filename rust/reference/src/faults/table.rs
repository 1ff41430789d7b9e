//! Tables with a fault. They keep their cards in the order in which they came, beside the
//! reference's table, so that without a fault the two can be compared.

use crate::card::Card;
use crate::ends::{Ends, Sound, Start, TableEnd};
use crate::host::{Answer, Host};
use crate::ledger::Ledger;
use crate::refusal;
use crate::table::{MOST_CARDS, Region, Registered};
use crate::wire::{self, FRAME_HEADER, FrameHeader, LONGEST_FRAME};
use std::collections::BTreeMap;

/// Who finds a table's fault.
#[derive(Clone, Copy, Debug, PartialEq, Eq)]
pub enum TableFoundBy {
    /// The check of demand 3 for each card.
    Demand3,
    /// Two lists that differ in the other cards' frames only.
    Isolation,
    /// A comparison of answers and bytes only.
    Comparison,
}

macro_rules! table_faults {
    ($($(#[$doc:meta])* $name:ident => $found:ident,)*) => {
        /// What a table may get wrong.
        #[derive(Clone, Copy, Debug, PartialEq, Eq)]
        pub enum TableFault {
            $($(#[$doc])* $name,)*
        }

        impl TableFault {
            /// All of them.
            pub const ALL: &[TableFault] = &[$(TableFault::$name,)*];

            /// Who has to find it.
            pub fn found_by(self) -> TableFoundBy {
                match self {
                    $(TableFault::$name => TableFoundBy::$found,)*
                }
            }
        }
    };
}

table_faults! {
    /// The first card's pair and region serve the frames of all sources.
    FirstForAll => Demand3,
    /// A write may pass its region's end by one byte.
    WritesPastEnd => Isolation,
    /// A source that was removed goes on with its pair when it registers again.
    KeepsRemovedPair => Demand3,
    /// Regions overlap only if the new one's first byte is in the other.
    OverlapByFirstByte => Isolation,
    /// 28 comes before 30, 31 and 29.
    FullFirst => Comparison,
    /// 31 for a memory that ends too soon comes after 4 and 5.
    ShortAfterLayout => Comparison,
    /// Addresses count from memory's start.
    FromMemorysStart => Demand3,
    /// A memory that ends before any region does gets 31.
    ShortForAny => Demand3,
    /// Behind a removed card the pairs move up by one place, and the regions stay.
    RegionsStay => Demand3,
    /// Regions that touch overlap.
    TouchingOverlaps => Comparison,
    /// A region's end is added in 64 bits.
    EndIn64Bits => Comparison,
    /// 29 comes before 31.
    OverlapBeforeOutside => Comparison,
    /// A removed place is not used again.
    PlacesUsedOnce => Comparison,
    /// 31 for a memory that ends too soon comes before 3.
    ShortBeforeIds => Comparison,
    /// The acknowledgement goes to the first card.
    AcknowledgesFirst => Comparison,
    /// A pair of another host is adopted.
    AdoptsOthersPairs => Comparison,
}

/// Tables with this fault, or with none, and the reference's cards and hosts.
#[derive(Clone, Copy, Debug, PartialEq, Eq)]
pub struct FaultyTables(pub Option<TableFault>);

impl Ends for FaultyTables {
    type Card = Card;
    type Host = Host;
    type Table = FaultyTable;
    type Ledger = Ledger;

    fn open_card(
        &self,
        own: u16,
        peer: u16,
        limit: usize,
        slots: &[u8],
        start: Start,
    ) -> (Card, Option<u8>) {
        Sound.open_card(own, peer, limit, slots, start)
    }

    fn open_host(&self, own: u16, peer: u16, start: Start) -> (Host, Option<u8>) {
        Sound.open_host(own, peer, start)
    }

    fn open_table(&self, own: u16) -> (FaultyTable, Option<u8>) {
        let (_, refusal) = Sound.open_table(own);
        let table = FaultyTable {
            fault: self.0,
            own,
            cards: Vec::new(),
            removed: BTreeMap::new(),
            entered: 0,
        };
        (table, refusal)
    }

    fn open_ledger(&self, start: &Ledger) -> Ledger {
        Sound.open_ledger(start)
    }
}

/// A table with a fault, or with none.
#[derive(Clone, Debug)]
pub struct FaultyTable {
    fault: Option<TableFault>,
    own: u16,
    /// In the order in which they came.
    cards: Vec<(Host, Region)>,
    /// The pairs of removed ones.
    removed: BTreeMap<u16, Host>,
    /// How many ever came.
    entered: usize,
}

impl FaultyTable {
    fn has(&self, fault: TableFault) -> bool {
        self.fault == Some(fault)
    }

    fn index_of(&self, source: u16) -> Option<usize> {
        self.cards
            .iter()
            .position(|(pair, _)| pair.ids().1 == source)
    }

    fn fits(&self, region: Region, memory: u64) -> bool {
        if self.has(TableFault::EndIn64Bits) {
            let end = region.first.wrapping_add(region.length);
            return region.length > 0 && end <= memory;
        }
        region.fits(memory)
    }

    fn overlaps(&self, new: Region, other: Region) -> bool {
        let (one, two) = (new.bytes(), other.bytes());
        match self.fault {
            Some(TableFault::OverlapByFirstByte) => two.contains(&one.start),
            Some(TableFault::TouchingOverlaps) => one.start <= two.end && two.start <= one.end,
            _ => one.start < two.end && two.start < one.end,
        }
    }

    fn enter(&mut self, pair: Host, region: Region, memory: u64) -> Result<(), u8> {
        let overlaps = |(_, other): &(Host, Region)| self.overlaps(region, *other);
        let there = if self.has(TableFault::PlacesUsedOnce) {
            self.entered
        } else {
            self.cards.len()
        };
        let mut refusals = [
            (refusal::REGISTERED, self.index_of(pair.ids().1).is_some()),
            (refusal::REGION_OUTSIDE, !self.fits(region, memory)),
            (refusal::REGION_OVERLAPS, self.cards.iter().any(overlaps)),
            (refusal::TABLE_FULL, there >= MOST_CARDS),
        ];
        match self.fault {
            Some(TableFault::FullFirst) => refusals.rotate_right(1),
            Some(TableFault::OverlapBeforeOutside) => refusals.swap(1, 2),
            _ => {}
        }
        if let Some((number, _)) = refusals.iter().find(|(_, applies)| *applies) {
            return Err(*number);
        }
        self.cards.push((pair, region));
        self.entered += 1;
        Ok(())
    }

    /// The card whose pair is to answer, or refusal 1, 2, 3 or 31.
    fn find(&self, frame: &[u8], memory: usize) -> Result<usize, u8> {
        let header = frame.first_chunk().ok_or(refusal::FRAME_SHORT)?;
        if frame.len() > LONGEST_FRAME {
            return Err(refusal::FRAME_LONG);
        }
        let header = FrameHeader::from_bytes(header);
        let ends_before = |region: Region| region.bytes().end > memory as u128;
        let index = self.index_of(header.source);
        if self.has(TableFault::ShortBeforeIds)
            && index.is_some_and(|index| ends_before(self.cards[index].1))
        {
            return Err(refusal::REGION_OUTSIDE);
        }
        let index = match self.has(TableFault::FirstForAll) {
            true => (!self.cards.is_empty()).then_some(0),
            false => index,
        };
        let index = index.filter(|_| header.destination == self.own);
        let index = index.ok_or(refusal::WRONG_ID)?;
        let short = match self.has(TableFault::ShortForAny) {
            true => self.cards.iter().any(|(_, region)| ends_before(*region)),
            false => ends_before(self.cards[index].1),
        };
        match wire::read(frame, None) {
            Err(number) if short && self.has(TableFault::ShortAfterLayout) => Err(number),
            _ if short => Err(refusal::REGION_OUTSIDE),
            _ => Ok(index),
        }
    }
}

impl TableEnd for FaultyTable {
    fn register(&mut self, source: u16, region: Region, memory: u64) -> Result<(), u8> {
        let (fresh, refusal) = Host::open(self.own, source);
        refusal.map_or(Ok(()), Err)?;
        let kept = self.removed.get(&source).cloned();
        let kept = kept.filter(|_| self.has(TableFault::KeepsRemovedPair));
        self.enter(kept.unwrap_or(fresh), region, memory)
    }

    fn adopt(&mut self, pair: &Host, region: Region, memory: u64) -> Result<(), u8> {
        let (own, source) = pair.ids();
        let others = own != self.own && !self.has(TableFault::AdoptsOthersPairs);
        if self.own == 0 || source == 0 || others {
            return Err(refusal::ID_ZERO);
        }
        self.enter(pair.clone(), region, memory)
    }

    fn remove(&mut self, source: u16) -> Result<(), u8> {
        let index = self.index_of(source).ok_or(refusal::WRONG_ID)?;
        let regions: Vec<Region> = self.cards.iter().map(|(_, region)| *region).collect();
        let (pair, _) = self.cards.remove(index);
        self.removed.insert(source, pair);
        if self.has(TableFault::RegionsStay) {
            for ((_, region), stays) in self.cards.iter_mut().zip(regions) {
                *region = stays;
            }
        }
        Ok(())
    }

    fn take(&self, source: u16) -> Result<Host, u8> {
        let index = self.index_of(source).ok_or(refusal::WRONG_ID)?;
        Ok(self.cards[index].0.clone())
    }

    fn receive(&mut self, frame: &[u8], memory: &mut [u8]) -> Answer {
        let index = match self.find(frame, memory.len()) {
            Ok(index) => index,
            Err(number) => return Answer::Refused { number, place: 0 },
        };
        let (fault, (pair, region)) = (self.fault, &mut self.cards[index]);
        let (mut start, mut end) = (
            region.first as usize,
            (region.first + region.length) as usize,
        );
        match fault {
            Some(TableFault::WritesPastEnd) => end = memory.len().min(end + 1),
            Some(TableFault::FromMemorysStart) => (start, end) = (0, end - start),
            _ => {}
        }
        // Whichever pair it is, its IDs are not asked for again.
        let (own, peer) = pair.ids();
        let mut frame = frame.to_vec();
        frame[0..2].copy_from_slice(&own.to_le_bytes());
        frame[2..4].copy_from_slice(&peer.to_le_bytes());
        pair.receive(&frame, &mut memory[start..end])
    }

    fn acknowledgement(
        &self,
        answer: Answer,
        source: u16,
        next_number: u16,
    ) -> Option<[u8; FRAME_HEADER]> {
        let first = self.cards.first().map(|(pair, _)| pair.ids().1);
        let first = first.filter(|_| self.has(TableFault::AcknowledgesFirst));
        let pair = Host::starting_at(self.own, first.unwrap_or(source), 0, 0);
        pair.acknowledgement(answer, next_number)
    }

    fn own(&self) -> u16 {
        self.own
    }

    fn cards(&self) -> Vec<Registered> {
        let cards = self.cards.iter().map(|(pair, region)| Registered {
            source: pair.ids().1,
            region: *region,
        });
        let mut cards: Vec<Registered> = cards.collect();
        cards.sort_by_key(|card| card.region.first);
        cards
    }
}
