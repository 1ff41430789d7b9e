//! Runs lists: one that is made up as it goes, or one that is given. Either way the
//! premises of demand 3 are checked beside its claims, so that a breach is one of a
//! list that the demand speaks of.

use super::{Profile, Simulator, Tally};
use crate::demand::{Breach, Care, Setting, System};
use crate::ends::Ends;
use crate::list::{Call, Outcome};
use crate::premises;

/// A list that was made and what came of it.
#[derive(Clone, Debug)]
pub struct Run {
    /// What it started from.
    pub setting: Setting,
    /// Its calls.
    pub calls: Vec<Call>,
    /// What each was answered; the last one is missing if it broke the demand.
    pub outcomes: Vec<Outcome>,
    /// What it has met.
    pub tally: Tally,
    /// What its last call broke.
    pub breach: Option<Breach>,
}

/// Makes a list of about so many calls on these ends. If `drained`, it goes on until
/// all its transactions are finished, which ends without a fault have to get to.
pub fn simulate<E: Ends>(
    ends: &E,
    seed: u64,
    profile: Profile,
    calls: usize,
    drained: bool,
    care: Care,
) -> Run {
    let setting = profile.setting(seed);
    let mut system = System::new(ends, &setting, care);
    let mut simulator = Simulator::new(seed, profile);
    let mut made = Vec::new();
    let mut outcomes = Vec::new();
    let mut breach = None;
    // A frame takes some five calls; no list takes this many more than planned.
    let most = 20 * calls + 10_000;
    while made.len() < calls || drained && !system.book().is_settled() && made.len() < most {
        if made.len() == calls {
            simulator.drain();
        }
        let call = simulator.next_call(system.book());
        assert!(
            premises::in_time(system.book(), &call),
            "seed {seed}: {call:?}"
        );
        let step = system.step(&call);
        made.push(call);
        match step {
            Ok(outcome) => {
                simulator.note(&made[made.len() - 1], &outcome, system.book());
                outcomes.push(outcome);
            }
            Err(found) => {
                breach = Some(found);
                break;
            }
        }
    }
    let breach = breach.or_else(|| system.finish().err());
    assert!(
        !drained || breach.is_some() || system.book().is_settled(),
        "seed {seed}: not settled after {most} calls"
    );
    let allowed = premises::writes_allowed(system.book(), setting.memory.len());
    assert_eq!(allowed, Ok(()), "seed {seed}: the list keeps no premise");
    Run {
        setting,
        calls: made,
        outcomes,
        tally: simulator.tally().clone(),
        breach,
    }
}

/// Why a given list does not pass on some ends.
#[derive(Clone, Debug, PartialEq, Eq)]
pub enum Failure {
    /// It keeps no premise on these ends, so the demand says nothing of it.
    Premise,
    /// The call of this index breaks the demand.
    Breach(usize, Breach),
}

/// Runs a given list on these ends, up to the first breach if there is one.
pub fn check_list<E: Ends>(
    ends: &E,
    setting: &Setting,
    calls: &[Call],
    care: Care,
) -> Result<(), Failure> {
    let mut system = System::new(ends, setting, care);
    let mut found = Ok(());
    for (index, call) in calls.iter().enumerate() {
        if !premises::in_time(system.book(), call) {
            return Err(Failure::Premise);
        }
        if let Err(breach) = system.step(call) {
            found = Err(Failure::Breach(index, breach));
            break;
        }
    }
    // What was made so far is a list too, and it has to keep the premises as one.
    if premises::writes_allowed(system.book(), setting.memory.len()).is_err() {
        return Err(Failure::Premise);
    }
    found?;
    let last = calls.len();
    system
        .finish()
        .map_err(|breach| Failure::Breach(last, breach))
}
