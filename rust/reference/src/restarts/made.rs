//! Random lists with restarts: those of the simulator, with storings and returns between
//! their calls. Which storing a return goes back to is any of those that the premise allows.

use super::{Site, SiteCall, SiteOutcome, Store, store};
use crate::demand::{Breach, Setting};
use crate::host::Answer;
use crate::list::Outcome;
use crate::premises;
use crate::rng::Rng;
use crate::simulator::{Profile, Simulator};
use std::collections::BTreeMap;

/// How often lists have met what restarts can come to, so that a test can tell lists with
/// real content from some about next to nothing.
#[derive(Clone, Debug, Default, PartialEq, Eq)]
pub struct Met(BTreeMap<&'static str, u64>);

impl Met {
    /// All that is counted.
    pub const ALL: [&str; 9] = [
        "a storing",
        "a storing refused with 19",
        "a return",
        "a return to an older storing",
        "a return with frames accepted ahead",
        "a return with closed transactions",
        "a return with open transactions",
        "a return to nothing, refused with 15",
        "a frame accepted after a return",
    ];

    /// Counts a call that was made.
    fn note(&mut self, site: &Site, call: &SiteCall, outcome: &SiteOutcome) {
        match (call, outcome) {
            (SiteCall::Store(_), SiteOutcome::Refusal(refusal)) => {
                self.count("a storing", refusal.is_none());
                self.count("a storing refused with 19", *refusal == Some(19));
            }
            (SiteCall::Return(index), SiteOutcome::Refusal(refusal)) => {
                let kept = site.text_kept(*index);
                let nothing = "a return to nothing, refused with 15";
                self.count(nothing, kept.is_none() && *refusal == Some(15));
                if let Some(text) = kept {
                    self.note_return(text, index + 1 < site.kept());
                }
            }
            (_, SiteOutcome::Ordinary(Outcome::Answered(Answer::Accepted { .. }))) => {
                let returned = self.times("a return") > 0;
                self.count("a frame accepted after a return", returned);
            }
            _ => {}
        }
    }

    fn note_return(&mut self, text: &[u8], older: bool) {
        let some = |digits: &[u8]| digits.iter().any(|digit| *digit != b'0');
        self.count("a return", true);
        self.count("a return to an older storing", older);
        let ahead = some(&text[store::MARKS]);
        self.count("a return with frames accepted ahead", ahead);
        let closed = some(&text[store::CLOSED]);
        self.count("a return with closed transactions", closed);
        let open = text.len() > store::FIRST_LINE;
        self.count("a return with open transactions", open);
    }

    fn count(&mut self, what: &'static str, met: bool) {
        assert!(Met::ALL.contains(&what), "{what} is not listed");
        *self.0.entry(what).or_default() += u64::from(met);
    }

    /// How often something was met.
    pub fn times(&self, what: &str) -> u64 {
        self.0.get(what).copied().unwrap_or(0)
    }

    /// Adds what another list has met.
    pub fn add(&mut self, other: &Met) {
        for (what, times) in &other.0 {
            *self.0.entry(what).or_default() += times;
        }
    }
}

/// A list that was made and what came of it.
#[derive(Clone, Debug)]
pub struct Made {
    /// What it started from.
    pub setting: Setting,
    /// Its calls.
    pub calls: Vec<SiteCall>,
    /// What its restarts have met.
    pub met: Met,
    /// What its last call broke.
    pub breach: Option<Breach>,
}

/// Makes a list of so many calls, about one in six of them a storing or a return, over this
/// store; then, unless demand 3 is broken before, goes on without restarts until all its
/// transactions are finished.
pub fn make(store: Store, seed: u64, profile: Profile, calls: usize) -> Made {
    let setting = profile.setting(seed);
    let mut site = Site::new(&setting, store);
    let mut simulator = Simulator::new(seed, profile);
    let mut rng = Rng::new(!seed);
    let mut made = Made {
        setting,
        calls: Vec::new(),
        met: Met::default(),
        breach: None,
    };
    // A frame takes some five calls; no list takes this many more than planned.
    let most = 20 * calls + 10_000;
    while made.breach.is_none()
        && (made.calls.len() < calls || !site.system().book().is_settled())
        && made.calls.len() < most
    {
        if made.calls.len() == calls {
            simulator.drain();
        }
        let call = match rng.below(12) {
            0 if made.calls.len() < calls => SiteCall::Store(buffer_length(&mut rng, &site)),
            1 if made.calls.len() < calls => SiteCall::Return(any_kept(&mut rng, &site)),
            _ => SiteCall::Ordinary(simulator.next_call(site.system().book())),
        };
        assert!(site.allows(&call), "seed {seed}: {call:?}");
        match site.step(&call) {
            Ok(outcome) => {
                made.met.note(&site, &call, &outcome);
                if let (SiteCall::Ordinary(call), SiteOutcome::Ordinary(outcome)) =
                    (&call, &outcome)
                {
                    simulator.note(call, outcome, site.system().book());
                }
            }
            Err(breach) => made.breach = Some(breach),
        }
        made.calls.push(call);
    }
    assert!(
        made.breach.is_some() || site.system().book().is_settled(),
        "seed {seed}: not settled after {most} calls"
    );
    let allowed = premises::writes_allowed(site.system().book(), made.setting.memory.len());
    assert_eq!(allowed, Ok(()), "seed {seed}: the list keeps no premise");
    made
}

/// Lengths on both sides of the text's own, and others.
fn buffer_length(rng: &mut Rng, site: &Site) -> usize {
    let text = site.system().host().text().len();
    rng.pick(&[text, text, text + 1, 2_000, text - 1, 46, 0])
}

/// A storing behind which nothing was accepted, or one that is not there.
fn any_kept(rng: &mut Rng, site: &Site) -> usize {
    let allowed: Vec<usize> = (0..site.kept())
        .filter(|index| site.allows(&SiteCall::Return(*index)))
        .collect();
    if allowed.is_empty() || rng.chance(1, 8) {
        return site.kept() + rng.below(3);
    }
    rng.pick(&allowed)
}
