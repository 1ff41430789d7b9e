//! A card into which one fault at a time can be put, to show that the generated calls would
//! uncover it. It lets the independent card do the call and spoils what comes of it, so that
//! without a fault it agrees, and with one it goes wrong in that alone.

use reference::card::{CARD_WORDS, Card};
use reference::card_calls::{Call, Outcome, expected};
use reference::wire;
use std::collections::BTreeSet;

macro_rules! faults {
    ($($(#[$doc:meta])* $name:ident,)*) => {
        /// What a card may get wrong.
        #[derive(Clone, Copy, Debug, PartialEq, Eq)]
        pub enum Fault {
            $($(#[$doc])* $name,)*
        }

        impl Fault {
            pub const ALL: &[Fault] = &[$(Fault::$name,)*];
        }
    };
}

faults! {
    // Showing and choosing.
    /// An acknowledged frame that is not released is shown.
    ShowsAcknowledged,
    /// The frame being built is shown.
    ShowsBuilding,
    ShowsWholeSlot,
    ShowsOneByteLess,
    ShowsNextSlot,
    ShowTwentyFiveFirst,
    /// A held frame goes before a lent acknowledgement.
    ChoosesFrameFirst,
    /// Whatever is lent goes first.
    ChoosesAnyLength,
    /// A lent acknowledgement of at least that length goes first.
    ChoosesLongerLent,
    ChoosesNewest,
    ChooseTwentyFiveFirst,
    /// A lent acknowledgement is chosen whatever the slots are.
    ChoosesWithoutSlots,

    // Bytes.
    GapNotZeroed,
    /// The last message is padded too.
    LastPadded,
    TrailingNotSet,
    /// The last message says that another follows.
    TrailingAtLast,
    TrailingOneByteEarly,
    /// The frame header is left as it was.
    HeaderNotWritten,
    IdsSwapped,
    NumberNotWritten,
    FlagNotSet,
    DataOneByteShort,
    /// Sealing clears the rest of the slot.
    SealingClearsSlot,
    RefusedAddingWrites,

    // The frame limit.
    LimitOneLess,
    LimitOneMore,

    // The order of refusals.
    TwentyThreeBeforeTwentySix,
    TwentySevenBeforeTwentyThree,
    TwentyOneBeforeTwentySeven,
    TwentyTwoBeforeTwentyOne,
    TwentyTwoBeforeTwentyThree,
    TwentyFourBeforeTwentySix,

    // Windows and transactions.
    FrameWindow63,
    FrameWindow65,
    TransactionWindow31,
    TransactionWindow33,
    /// A transaction counts as finished as soon as its messages are added.
    FinishedWhenAdded,
    /// Data is taken for a bare message.
    BareTakesData,
    /// The bare message is not counted.
    BareAddedTwice,

    // Reading acknowledgements.
    RangeOneMore,
    RangeOneLess,
    RangeFromOneBefore,
    RangeFromOneAfter,
    CountZeroIsOne,
    /// All up to the range's end are acknowledged.
    AcknowledgesThrough,
    AcknowledgesBuilding,
    /// A refused frame's acknowledgements count.
    AcknowledgesRefused,
    /// Frames that carry messages acknowledge nothing.
    MessagesHideAcknowledgements,
    IdsNotLookedAt,
}

/// The card, with a fault or without.
pub struct Faulty {
    fault: Option<Fault>,
    card: Card,
    limit: usize,
    slots: Vec<u8>,
    /// Numbers that were acknowledged before their frame was sealed.
    early: BTreeSet<u16>,
}

impl Faulty {
    pub fn new(fault: Option<Fault>, own: u16, peer: u16, limit: usize, slots: &[u8]) -> Faulty {
        Faulty {
            fault,
            card: Card::open(own, peer, limit, slots).0,
            limit,
            slots: slots.to_vec(),
            early: BTreeSet::new(),
        }
    }

    pub fn slots(&self) -> &[u8] {
        &self.slots
    }

    pub fn call(&mut self, call: &Call) -> Outcome {
        let before = self.card.to_words();
        match call {
            Call::Open { .. } => self.open(call, &before),
            Call::Add { .. } => self.add(call, &before),
            Call::Seal { short } => self.seal(call, *short, &before),
            Call::Read(frame) => self.read(frame),
            Call::Show { number, short } => self.show(call, *number, *short, &before),
            Call::Choose { lent, short } => self.choose(call, lent, *short, &before),
        }
    }

    fn right(&mut self, call: &Call) -> Outcome {
        expected(&mut self.card, &mut self.slots, call)
    }

    fn open(&mut self, call: &Call, before: &[u64; CARD_WORDS]) -> Outcome {
        let outcome = self.right(call);
        let (next, lowest) = (before[3] as u32, (before[3] >> 32) as u32);
        let opened = next.wrapping_sub(lowest);
        let entry = before[22 + 2 * (lowest as usize % 32)];
        let added = entry >> 16 & 0xffff == (entry & 0xffff).max(1);
        match self.fault {
            Some(Fault::TransactionWindow31) if opened == 31 => Outcome::Refused(20),
            Some(Fault::TransactionWindow33) if opened == 32 => Outcome::Number(next),
            Some(Fault::FinishedWhenAdded) if opened == 32 && added => Outcome::Number(next),
            _ => outcome,
        }
    }

    fn add(&mut self, call: &Call, before: &[u64; CARD_WORDS]) -> Outcome {
        let Call::Add {
            transaction,
            data,
            short,
            ..
        } = call
        else {
            unreachable!("it is an adding");
        };
        let used = (before[0] >> 48) as usize;
        let number = (before[1] >> 16) as u16;
        let slot = usize::from(number) % 64 * self.limit;
        let old = self.slots[slot..slot + self.limit].to_vec();
        let outcome = self.right(call);
        let start = wire::next_header(used);
        let adding = Adding::new(
            before,
            *transaction,
            data,
            *short,
            start + 24 + data.len(),
            self.limit,
        );
        match adding.outcome(self.fault, self.limit, &outcome) {
            Some(wrong) => return wrong,
            None if outcome == Outcome::Done => {
                self.spoil_bytes(number, used, start..adding.end, &old);
            }
            None if self.fault == Some(Fault::RefusedAddingWrites)
                && outcome == Outcome::Refused(22) =>
            {
                self.slots[slot..slot + 10].fill(0);
            }
            None => {}
        }
        outcome
    }

    /// Spoils what an adding wrote into the slot of the frame being built.
    fn spoil_bytes(
        &mut self,
        number: u16,
        used: usize,
        message: std::ops::Range<usize>,
        old: &[u8],
    ) {
        let at = usize::from(number) % 64 * self.limit;
        let slot = &mut self.slots[at..at + self.limit];
        let last = slot.len().min(wire::next_header(message.end));
        match self.fault {
            Some(Fault::GapNotZeroed) if used > 0 => {
                slot[used..message.start].copy_from_slice(&old[used..message.start]);
            }
            Some(Fault::LastPadded) => slot[message.end..last].fill(0),
            Some(Fault::TrailingNotSet) if used > 0 => restore(slot, old, used),
            Some(Fault::TrailingOneByteEarly) if used > 0 => {
                let at = (0..used).rfind(|at| slot[*at] != old[*at]);
                restore(slot, old, used);
                if let Some(at) = at {
                    slot[at - 1] = 1;
                }
            }
            Some(Fault::TrailingAtLast) => slot[message.start + 23] = 1,
            Some(Fault::HeaderNotWritten) if used == 0 => slot[..10].copy_from_slice(&old[..10]),
            Some(Fault::IdsSwapped) if used == 0 => slot[..4].rotate_left(2),
            Some(Fault::NumberNotWritten) if used == 0 => slot[4..6].copy_from_slice(&old[4..6]),
            Some(Fault::FlagNotSet) if used == 0 => slot[9] = 0,
            Some(Fault::DataOneByteShort) if message.len() > 24 => {
                slot[message.end - 1] = old[message.end - 1];
            }
            _ => {}
        }
    }

    fn seal(&mut self, call: &Call, short: bool, before: &[u64; CARD_WORDS]) -> Outcome {
        let outcome = self.right(call);
        let used = (before[0] >> 48) as usize;
        match (self.fault, &outcome) {
            (Some(Fault::TwentyFourBeforeTwentySix), _) if short && used == 0 => {
                return Outcome::Refused(24);
            }
            (Some(Fault::SealingClearsSlot), Outcome::Number(number)) => {
                let slot = *number as usize % 64 * self.limit;
                self.slots[slot + used..slot + self.limit].fill(0);
            }
            (Some(Fault::AcknowledgesBuilding), Outcome::Number(number))
                if self.early.remove(&(*number as u16)) =>
            {
                let (own, peer) = (before[0] as u16, (before[0] >> 16) as u16);
                let frame = wire::ack_frame(own, peer, 0, *number as u16, 1);
                self.card.read(&frame).expect("it is for this card");
            }
            _ => {}
        }
        outcome
    }

    fn read(&mut self, frame: &[u8]) -> Outcome {
        let mut frame = frame.to_vec();
        let refused = self.card.clone().read(&frame).err();
        match self.fault {
            Some(Fault::AcknowledgesRefused) if refused.is_some_and(|number| number >= 4) => {
                frame.truncate(10);
                frame[9] = 0;
            }
            Some(Fault::IdsNotLookedAt) if refused == Some(3) => {
                let ids = self.card.to_words()[0] as u32;
                frame[..4].copy_from_slice(&ids.to_le_bytes());
            }
            _ if refused.is_none() => self.spoil_range(&mut frame),
            _ => {}
        }
        let outcome = match self.card.read(&frame) {
            Ok(()) => Outcome::Done,
            Err(number) => Outcome::Refused(number),
        };
        match refused {
            Some(number) if self.fault != Some(Fault::IdsNotLookedAt) => Outcome::Refused(number),
            _ => outcome,
        }
    }

    /// Changes what a frame for the card acknowledges.
    fn spoil_range(&mut self, frame: &mut [u8]) {
        let (start, count) = (u16::from_le_bytes([frame[6], frame[7]]), frame[8]);
        let (lowest, next) = (self.card.lowest_unreleased(), self.card.next_number());
        let covers = |number: u16| number.wrapping_sub(start) < count.into();
        let (mut new_start, mut new_count) = (start, count);
        match self.fault {
            Some(Fault::RangeOneMore) if count > 0 => new_count = count.saturating_add(1),
            Some(Fault::RangeOneLess) => new_count = count.saturating_sub(1),
            Some(Fault::RangeFromOneBefore) => new_start = start.wrapping_sub(1),
            Some(Fault::RangeFromOneAfter) => new_start = start.wrapping_add(1),
            Some(Fault::CountZeroIsOne) => new_count = count.max(1),
            Some(Fault::AcknowledgesThrough) => {
                let ahead = start.wrapping_sub(lowest);
                if count > 0 && usize::from(ahead) < self.card.unreleased() {
                    (new_start, new_count) = (lowest, count.saturating_add(ahead as u8));
                }
            }
            Some(Fault::AcknowledgesBuilding)
                if covers(next) && self.card.to_words()[0] >> 48 > 0 =>
            {
                self.early.insert(next);
            }
            Some(Fault::MessagesHideAcknowledgements) if frame[9] == 1 => new_count = 0,
            _ => {}
        }
        frame[6..8].copy_from_slice(&new_start.to_le_bytes());
        frame[8] = new_count;
    }

    /// The slot's first bytes, as many as its frame has and then so many more.
    fn part(&self, number: u16, more: isize) -> Outcome {
        let words = self.card.to_words();
        let slot = usize::from(number) % 64;
        let size = (words[5 + slot / 4] >> (16 * (slot % 4)) & 0xffff) as usize;
        let start = slot * self.limit;
        let end = (start + size)
            .saturating_add_signed(more)
            .min(self.slots.len());
        Outcome::Frame(start, self.slots[start..end].to_vec())
    }

    fn show(
        &mut self,
        call: &Call,
        number: u16,
        short: bool,
        before: &[u64; CARD_WORDS],
    ) -> Outcome {
        let outcome = self.right(call);
        let (next, base) = ((before[1] >> 16) as u16, (before[1] >> 32) as u16);
        let used = (before[0] >> 48) as usize;
        let sealed = number.wrapping_sub(base) < next.wrapping_sub(base);
        let held = sealed && before[2] >> number.wrapping_sub(base) & 1 == 0;
        let refused = outcome == Outcome::Refused(25);
        match self.fault {
            Some(Fault::ShowsAcknowledged) if refused && sealed => self.part(number, 0),
            Some(Fault::ShowsBuilding) if refused && number == next && used > 0 => {
                let start = usize::from(number) % 64 * self.limit;
                Outcome::Frame(start, self.slots[start..start + used].to_vec())
            }
            Some(Fault::ShowTwentyFiveFirst) if short && !held => Outcome::Refused(25),
            Some(Fault::ShowsWholeSlot) => match outcome {
                Outcome::Frame(start, _) => {
                    Outcome::Frame(start, self.slots[start..start + self.limit].to_vec())
                }
                outcome => outcome,
            },
            Some(Fault::ShowsOneByteLess) if held && !short => self.part(number, -1),
            Some(Fault::ShowsNextSlot) if held && !short => self.part(number.wrapping_add(1), 0),
            _ => outcome,
        }
    }

    fn choose(
        &mut self,
        call: &Call,
        lent: &[u8],
        short: bool,
        before: &[u64; CARD_WORDS],
    ) -> Outcome {
        let outcome = self.right(call);
        let (next, base) = ((before[1] >> 16) as u16, (before[1] >> 32) as u16);
        let unreleased = next.wrapping_sub(base);
        let held = |ahead: &u16| before[2] >> ahead & 1 == 0;
        let oldest = (0..unreleased).find(held);
        let newest = (0..unreleased).rfind(held);
        let is_frame = matches!(outcome, Outcome::Frame(..));
        match self.fault {
            Some(Fault::ChoosesFrameFirst) if lent.len() == 10 && !short => {
                oldest.map_or(outcome, |ahead| self.part(base.wrapping_add(ahead), 0))
            }
            Some(Fault::ChoosesAnyLength) if !lent.is_empty() && !short => {
                Outcome::Lent(lent.to_vec())
            }
            Some(Fault::ChoosesLongerLent) if lent.len() > 10 && !short => {
                Outcome::Lent(lent.to_vec())
            }
            Some(Fault::ChoosesNewest) if is_frame => {
                newest.map_or(outcome, |ahead| self.part(base.wrapping_add(ahead), 0))
            }
            Some(Fault::ChooseTwentyFiveFirst) if short && lent.len() != 10 && oldest.is_none() => {
                Outcome::Refused(25)
            }
            Some(Fault::ChoosesWithoutSlots) if lent.len() == 10 => Outcome::Lent(lent.to_vec()),
            _ => outcome,
        }
    }
}

/// What decides about an adding.
struct Adding {
    /// Each refusal in the order of the rules, and whether it applies.
    refusals: [(u8, bool); 5],
    /// The transaction is one of the opened ones, and bare.
    bare: bool,
    unreleased: u16,
    /// Where the message would end.
    end: usize,
}

impl Adding {
    fn new(
        before: &[u64; CARD_WORDS],
        transaction: u32,
        data: &[u8],
        short: bool,
        end: usize,
        limit: usize,
    ) -> Adding {
        let (next, lowest) = (before[3] as u32, (before[3] >> 32) as u32);
        let entry = before[22 + 2 * (transaction as usize % 32)];
        let (count, added) = (entry & 0xffff, entry >> 16 & 0xffff);
        let known = transaction.wrapping_sub(lowest) < next.wrapping_sub(lowest);
        let unreleased = ((before[1] >> 16) as u16).wrapping_sub((before[1] >> 32) as u16);
        Adding {
            refusals: [
                (26, short),
                (23, !known || added >= count.max(1)),
                (27, known && count == 0 && !data.is_empty()),
                (21, unreleased >= 64),
                (22, end > limit),
            ],
            bare: known && count == 0,
            unreleased,
            end,
        }
    }

    /// The first refusal of these in this order.
    fn first(&self, order: [usize; 5]) -> Option<Outcome> {
        let mut refusals = order.iter().map(|index| self.refusals[*index]);
        let first = refusals.find(|(_, applies)| *applies);
        Some(first.map_or(Outcome::Done, |(number, _)| Outcome::Refused(number)))
    }

    /// What the fault makes of the outcome, if it is one of those.
    fn outcome(&self, fault: Option<Fault>, limit: usize, right: &Outcome) -> Option<Outcome> {
        let done = *right == Outcome::Done;
        let refused = |number| *right == Outcome::Refused(number);
        match fault? {
            Fault::TwentyThreeBeforeTwentySix => self.first([1, 0, 2, 3, 4]),
            Fault::TwentySevenBeforeTwentyThree => self.first([0, 2, 1, 3, 4]),
            Fault::TwentyOneBeforeTwentySeven => self.first([0, 1, 3, 2, 4]),
            Fault::TwentyTwoBeforeTwentyOne => self.first([0, 1, 2, 4, 3]),
            Fault::TwentyTwoBeforeTwentyThree => self.first([0, 4, 1, 2, 3]),
            Fault::LimitOneLess if done && self.end == limit => Some(Outcome::Refused(22)),
            Fault::LimitOneMore if refused(22) && self.end == limit + 1 => Some(Outcome::Done),
            Fault::FrameWindow63 if done && self.unreleased == 63 => Some(Outcome::Refused(21)),
            Fault::FrameWindow65 if refused(21) && self.unreleased == 64 => Some(Outcome::Done),
            Fault::BareTakesData if refused(27) => Some(Outcome::Done),
            Fault::BareAddedTwice if refused(23) && self.bare => Some(Outcome::Done),
            _ => None,
        }
    }
}

/// The bytes of the messages before the latest one as they were.
fn restore(slot: &mut [u8], old: &[u8], used: usize) {
    slot[..used].copy_from_slice(&old[..used]);
}
