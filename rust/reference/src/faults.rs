//! Ends with one fault each, to show that the check of demand 3, or a comparison of
//! answers and bytes, would find it. Each card and host wraps the reference's end and
//! changes one thing, so that all else stays as it is there.

use crate::ends::{Ends, Sound, Start};
use crate::ledger::Ledger;
use crate::table::Table;
use crate::windows::Windows;

mod card;
mod host;
mod ledger;
mod table;

pub use card::FaultyCard;
pub use host::FaultyHost;
pub use ledger::{FaultyLedger, FaultyLedgers, LedgerFault, LedgerFoundBy};
pub use table::{FaultyTable, FaultyTables, TableFault, TableFoundBy};

/// Who finds a fault.
#[derive(Clone, Copy, Debug, PartialEq, Eq)]
pub enum FoundBy {
    /// The check of demand 3, in lists that keep its premises.
    Demand3,
    /// A comparison of answers and bytes only: demand 3 holds in spite of the fault.
    Comparison,
}

macro_rules! faults {
    ($($(#[$doc:meta])* $name:ident => $found:ident,)*) => {
        /// What an end may get wrong.
        #[derive(Clone, Copy, Debug, PartialEq, Eq)]
        pub enum Fault {
            $($(#[$doc])* $name,)*
        }

        impl Fault {
            /// All of them.
            pub const ALL: &[Fault] = &[$(Fault::$name,)*];

            /// Who has to find it.
            pub fn found_by(self) -> FoundBy {
                match self {
                    $(Fault::$name => FoundBy::$found,)*
                }
            }
        }
    };
}

faults! {
    /// S4a: the host refuses every frame.
    HostRefusesAll => Demand3,
    /// S4b: the host answers "again" to all.
    HostAgainToAll => Demand3,
    /// S4c: the card refuses to add anything.
    CardAddsNothing => Comparison,
    /// S4d: the host answers "again" to all but its first frame.
    HostTakesFirstOnly => Demand3,
    /// S4d: the host answers as it should and writes its first frame only.
    HostWritesFirstOnly => Demand3,
    /// S4e: the host reports a message too many.
    HostInventsMessages => Demand3,
    /// S4e: the host reports the completions' bytes as data.
    HostInventsBytes => Demand3,
    /// X1: the host takes a frame number below the next one for an old one.
    HostFramesByLessThan => Demand3,
    /// X1: the host takes a transaction number below the lowest one for an old one.
    HostTransactionsByLessThan => Demand3,
    /// X1: the card looks for acknowledged numbers between lowest and next.
    CardAcknowledgesByLessThan => Demand3,
    /// X2: a transaction whose last frame's number is among the 64 from the lowest
    /// unreleased one on counts as unfinished.
    CardFinishedByWindow => Comparison,
    /// X2: one whose last frame's number is not behind the lowest unreleased one does.
    CardFinishedByHalf => Comparison,
    /// C16: an acknowledgement counts for all frames up to its number.
    CardAcknowledgesThrough => Demand3,
    /// C18: one whose last frame is the lowest unreleased one counts as finished.
    CardFinishesEarly => Demand3,
    /// X3: the messages before a refused one are written.
    HostWritesBeforeJudging => Comparison,
    /// X4: the host throws a repeat away without a word.
    HostSilentOnRepeats => Demand3,
    /// X4: the host answers "again" and calls for no acknowledgement.
    HostRepeatsUnacknowledged => Comparison,
    /// H23: the run counts one number too many.
    HostRunOneTooLong => Demand3,
    /// H19: the answer is right, and its acknowledgement has one number too many.
    HostAcknowledgesOneMore => Demand3,
    /// H24: the run is judged before the frame takes effect; the frame itself counts.
    HostRunBeforeEffect => Demand3,
    /// H23: the run counts accepted numbers past the next one, and none behind.
    HostRunOfMarksOnly => Demand3,
    /// H25: a run has up to 256 numbers, and 256 is 0 in the field's 8 bits.
    HostRunUpTo256 => Demand3,
    /// H25: a run has 64 numbers at most, as the window does.
    HostRunUpTo64 => Demand3,
    /// H23: answer and acknowledgement tell the run from the number after the frame's.
    HostRunFromNext => Demand3,
    /// H19: the acknowledgement of the run starts at the number after the frame's.
    HostAcknowledgesFromNext => Demand3,
    /// H19: a repeat is acknowledged alone.
    HostRepeatsAlone => Demand3,
    /// H19: every frame is acknowledged alone, whatever the run that is told.
    HostAcknowledgesAlone => Demand3,
    /// X5: address and length are added in 32 bits.
    HostSumsIn32Bits => Comparison,
    /// The host's frame window, larger and smaller.
    HostFrames65 => Comparison,
    /// As above.
    HostFrames63 => Demand3,
    /// The host's transaction window, larger and smaller.
    HostTransactions33 => Comparison,
    /// As above.
    HostTransactions31 => Demand3,
    /// The card's frame window, larger and smaller.
    CardFrames65 => Demand3,
    /// As above.
    CardFrames63 => Comparison,
    /// The card's transaction window, larger and smaller.
    CardTransactions33 => Demand3,
    /// As above.
    CardTransactions31 => Comparison,
    /// A frame exactly 32,768 late is ahead.
    HostBehindFrom32769 => Demand3,
    /// A frame 32,767 ahead is behind.
    HostBehindFrom32767 => Comparison,
}

/// Ends with this fault, or with none.
#[derive(Clone, Copy, Debug, PartialEq, Eq)]
pub struct Faulty(pub Option<Fault>);

impl Faulty {
    fn card_windows(self) -> Windows {
        let rules = Windows::RULES;
        match self.0 {
            Some(Fault::CardFrames65) => Windows {
                frames: 65,
                ..rules
            },
            Some(Fault::CardFrames63) => Windows {
                frames: 63,
                ..rules
            },
            Some(Fault::CardTransactions33) => Windows {
                transactions: 33,
                ..rules
            },
            // It has its own account of what is finished, which must be the one to refuse.
            Some(Fault::CardFinishesEarly) => Windows {
                transactions: 64,
                ..rules
            },
            Some(Fault::CardTransactions31) => Windows {
                transactions: 31,
                ..rules
            },
            _ => rules,
        }
    }

    fn host_windows(self) -> Windows {
        let rules = Windows::RULES;
        match self.0 {
            Some(Fault::HostFrames65) => Windows {
                frames: 65,
                ..rules
            },
            Some(Fault::HostFrames63) => Windows {
                frames: 63,
                ..rules
            },
            Some(Fault::HostTransactions33) => Windows {
                transactions: 33,
                ..rules
            },
            Some(Fault::HostTransactions31) => Windows {
                transactions: 31,
                ..rules
            },
            Some(Fault::HostBehindFrom32769) => Windows {
                behind: 32_769,
                ..rules
            },
            Some(Fault::HostBehindFrom32767) => Windows {
                behind: 32_767,
                ..rules
            },
            _ => rules,
        }
    }
}

impl Ends for Faulty {
    type Card = FaultyCard;
    type Host = FaultyHost;
    type Table = Table;
    type Ledger = Ledger;

    fn open_card(
        &self,
        own: u16,
        peer: u16,
        limit: usize,
        slots: &[u8],
        start: Start,
    ) -> (FaultyCard, Option<u8>) {
        let (card, refusal) = Sound.open_card(own, peer, limit, slots, start);
        let card = card.with_windows(self.card_windows());
        (FaultyCard::new(self.0, card), refusal)
    }

    fn open_host(&self, own: u16, peer: u16, start: Start) -> (FaultyHost, Option<u8>) {
        let (host, refusal) = Sound.open_host(own, peer, start);
        let host = host.with_windows(self.host_windows());
        (FaultyHost::new(self.0, host), refusal)
    }

    fn open_table(&self, own: u16) -> (Table, Option<u8>) {
        Sound.open_table(own)
    }

    fn open_ledger(&self, start: &Ledger) -> Ledger {
        Sound.open_ledger(start)
    }
}
