//! Cards with a fault. What a faulty card believes of its transactions is kept beside
//! the reference's card, which goes on as the rules say.

use super::Fault;
use crate::card::Card;
use crate::ends::CardEnd;
use crate::refusal;
use crate::wire;
use std::collections::VecDeque;

/// A transaction as a card sees it that keeps the number of its last frame only.
#[derive(Clone, Copy, Debug)]
struct Believed {
    number: u32,
    /// Messages still to be added.
    left: u16,
    last_frame: u16,
}

/// A card with a fault; it has none if there is none or it is the host's.
#[derive(Clone, Debug)]
pub struct FaultyCard {
    fault: Option<Fault>,
    card: Card,
    /// From the lowest one that it believes unfinished on.
    believed: VecDeque<Believed>,
}

impl FaultyCard {
    /// Puts the fault into a card.
    pub fn new(fault: Option<Fault>, card: Card) -> FaultyCard {
        FaultyCard {
            fault,
            card,
            believed: VecDeque::new(),
        }
    }

    /// Whether it takes a transaction for finished.
    fn believes_finished(&self, entry: &Believed) -> bool {
        let ahead = entry.last_frame.wrapping_sub(self.card.lowest_unreleased());
        let released = match self.fault {
            Some(Fault::CardFinishedByWindow) => ahead >= 64,
            Some(Fault::CardFinishesEarly) => ahead == 0 || ahead >= 32_768,
            _ => ahead >= 32_768,
        };
        entry.left == 0 && released
    }

    fn judges_by_number(&self) -> bool {
        matches!(
            self.fault,
            Some(
                Fault::CardFinishedByWindow | Fault::CardFinishedByHalf | Fault::CardFinishesEarly
            )
        )
    }

    /// Reads one by one the acknowledged numbers that plain less-than finds.
    fn read_by_less_than(&mut self, frame: &[u8]) -> Result<(), u8> {
        let (lowest, next) = (self.card.lowest_unreleased(), self.card.next_number());
        let mut trial = self.card.clone();
        trial.read(frame)?;
        let header = wire::layout(frame)?.header;
        for number in wire::acknowledged(&header) {
            if lowest <= number && number < next {
                let (own, peer) = (header.destination, header.source);
                self.card.read(&wire::ack_frame(own, peer, 0, number, 1))?;
            }
        }
        Ok(())
    }

    /// Reads a range from the lowest unreleased frame up to the acknowledged one.
    fn read_through(&mut self, frame: &[u8]) -> Result<(), u8> {
        let lowest = self.card.lowest_unreleased();
        let unreleased = self.card.unreleased() as u16;
        self.card.read(frame)?;
        let header = wire::layout(frame)?.header;
        let ahead = header.ack_start.wrapping_sub(lowest);
        if header.ack_count > 0 && ahead < unreleased {
            let (own, peer) = (header.destination, header.source);
            let through = wire::ack_frame(own, peer, 0, lowest, ahead as u8 + 1);
            self.card.read(&through)?;
        }
        Ok(())
    }
}

impl CardEnd for FaultyCard {
    fn open_transaction(&mut self, count: u16, address: u32, value: u32) -> Result<u32, u8> {
        if self.judges_by_number() && self.believed.len() >= 32 {
            return Err(refusal::TRANSACTIONS_FULL);
        }
        let number = self.card.open_transaction(count, address, value)?;
        self.believed.push_back(Believed {
            number,
            left: count.max(1),
            last_frame: 0,
        });
        Ok(number)
    }

    fn add(
        &mut self,
        transaction: u32,
        address: u32,
        data: &[u8],
        slots: &mut [u8],
    ) -> Result<(), u8> {
        if self.fault == Some(Fault::CardAddsNothing) {
            return Err(refusal::FRAME_FULL);
        }
        self.card.add(transaction, address, data, slots)?;
        let mut believed = self.believed.iter_mut();
        if let Some(entry) = believed.find(|entry| entry.number == transaction) {
            entry.left -= 1;
            entry.last_frame = self.card.next_number();
        }
        Ok(())
    }

    fn seal(&mut self, slots: &[u8]) -> Result<u16, u8> {
        self.card.seal(slots)
    }

    fn read(&mut self, frame: &[u8]) -> Result<(), u8> {
        match self.fault {
            Some(Fault::CardAcknowledgesByLessThan) => self.read_by_less_than(frame)?,
            Some(Fault::CardAcknowledgesThrough) => self.read_through(frame)?,
            _ => self.card.read(frame)?,
        }
        while let Some(front) = self.believed.front()
            && self.believes_finished(front)
        {
            self.believed.pop_front();
        }
        Ok(())
    }

    fn card(&self) -> &Card {
        &self.card
    }
}
