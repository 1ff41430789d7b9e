//! Lists with restarts of the host in them (D23 to D26): beside the calls on the two ends,
//! storings of the host's pair and returns to what one kept. The book sees neither, and what
//! is claimed of such a list is what demand 3 claims of one without.

use crate::demand::{Breach, Care, Setting, System, UNWRITTEN};
use crate::ends::Sound;
use crate::list::{Call, Outcome};
use crate::premises;

mod made;
mod store;

pub use made::{Made, Met, make};
pub use store::Store;

/// One call of such a list.
#[derive(Clone, Debug, PartialEq, Eq)]
pub enum SiteCall {
    /// A call on either end.
    Ordinary(Call),
    /// The host's pair is stored in a lent buffer of this length.
    Store(usize),
    /// The host starts again from what was kept under this index, counted from 0 over the
    /// storings that were not refused. Where nothing was kept it goes on as it is (D24).
    Return(usize),
}

/// What came of a call.
#[derive(Clone, Debug, PartialEq, Eq)]
pub enum SiteOutcome {
    /// What an ordinary one was answered.
    Ordinary(Outcome),
    /// The refusal of a storing or a return, if it was refused.
    Refusal(Option<u8>),
}

/// What a storing kept.
#[derive(Clone, Debug, PartialEq, Eq)]
struct Kept {
    text: Vec<u8>,
    memory: Vec<u8>,
    /// How often the host had accepted by then.
    acceptances: u32,
}

/// Both ends in a list, with the book, and what was kept.
pub struct Site {
    system: System<Sound>,
    store: Store,
    kept: Vec<Kept>,
}

impl Site {
    /// Both ends fresh, and nothing kept.
    pub fn new(setting: &Setting, store: Store) -> Site {
        Site {
            system: System::new(&Sound, setting, Care::EveryCall),
            store,
            kept: Vec::new(),
        }
    }

    /// Makes a call, and gives what came of it unless demand 3 is broken by it.
    pub fn step(&mut self, call: &SiteCall) -> Result<SiteOutcome, Breach> {
        match call {
            SiteCall::Ordinary(call) => self.system.step(call).map(SiteOutcome::Ordinary),
            SiteCall::Store(length) => Ok(SiteOutcome::Refusal(self.store_in(*length))),
            SiteCall::Return(index) => self.return_to(*index).map(SiteOutcome::Refusal),
        }
    }

    fn store_in(&mut self, length: usize) -> Option<u8> {
        let mut buffer = vec![UNWRITTEN; length];
        let stored = self.store.stored(self.system.host(), &mut buffer);
        if let Ok(length) = stored {
            self.kept.push(Kept {
                text: buffer[..length].to_vec(),
                memory: self.system.memory().to_vec(),
                acceptances: self.system.acceptances(),
            });
        }
        stored.err()
    }

    fn return_to(&mut self, index: usize) -> Result<Option<u8>, Breach> {
        let Some(Kept { text, memory, .. }) = self.kept.get(index) else {
            return Ok(self.store.restored(&[]).1);
        };
        let (host, refusal) = self.store.restored(text);
        let memory = self.store.memory_back(memory);
        self.system.restart(host, &memory)?;
        Ok(refusal)
    }

    /// The premises that are told call by call: nothing comes too late, and between a storing
    /// and a return to it nothing was accepted (D25).
    pub fn allows(&self, call: &SiteCall) -> bool {
        match call {
            SiteCall::Ordinary(call) => premises::in_time(self.system.book(), call),
            SiteCall::Store(_) => true,
            SiteCall::Return(index) => self
                .kept
                .get(*index)
                .is_none_or(|kept| kept.acceptances == self.system.acceptances()),
        }
    }

    /// The two ends and the book.
    pub fn system(&self) -> &System<Sound> {
        &self.system
    }

    /// How many storings kept something.
    pub fn kept(&self) -> usize {
        self.kept.len()
    }

    /// The text that was kept under this index.
    pub fn text_kept(&self, index: usize) -> Option<&[u8]> {
        self.kept.get(index).map(|kept| kept.text.as_slice())
    }
}
