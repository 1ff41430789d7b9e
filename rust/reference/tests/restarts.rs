//! Demand 3 over restarts of the host: random lists with storings and returns in them against
//! the plain book after every call, a return that comes too late, and stores with a fault.
//! `LW_SEED` chooses the seed and `LW_LISTS` the number of lists.

use reference::demand::{Breach, Setting};
use reference::ends::Start;
use reference::list::Call;
use reference::restarts::{Made, Met, Site, SiteCall, SiteOutcome, Store, make};
use reference::rng::Rng;
use reference::settings::{count_from_env, number_from_env};
use reference::simulator::Profile;

#[test]
fn lists_with_restarts_keep_the_demand_after_every_call() {
    let seed = number_from_env("LW_SEED", 1);
    let lists = count_from_env("LW_LISTS", 400);
    let mut rng = Rng::new(seed);
    let mut met = Met::default();
    for list in 0..lists {
        let list_seed = rng.next_u64();
        let profile = Profile::any(&mut rng);
        let made = make(Store::Sound, list_seed, profile, 500);
        assert_eq!(made.breach, None, "list {list} of seed {seed}");
        met.add(&made.met);
    }
    println!("seed {seed}, {lists} lists: {met:?}");
    for what in Met::ALL.into_iter().filter(|_| lists >= 400) {
        assert!(met.times(what) > 0, "{what} was not met: {met:?}");
    }
}

fn ordinary(calls: &[Call]) -> Vec<SiteCall> {
    calls.iter().cloned().map(SiteCall::Ordinary).collect()
}

/// A host of 8 bytes after these calls.
fn site(calls: &[SiteCall]) -> Site {
    let setting = Setting {
        card: 2,
        host: 1,
        limit: 100,
        memory: vec![0; 8],
        start: Start::default(),
    };
    let mut site = Site::new(&setting, Store::Sound);
    for call in calls {
        assert!(site.allows(call), "{call:?}");
        site.step(call).unwrap();
    }
    site
}

/// One frame, which the host has not received.
fn sent() -> Vec<SiteCall> {
    ordinary(&[
        Call::Open {
            count: 1,
            address: 4,
            value: 0xdddd_dddd,
        },
        Call::Add {
            transaction: 0,
            address: 0,
            data: vec![7],
        },
        Call::Seal,
        Call::Show(0),
    ])
}

/// The host has forgotten what it accepted, and so has memory: what its answers sum to is not
/// there.
#[test]
fn a_return_to_before_an_acceptance_breaks_the_demand() {
    let receive = SiteCall::Ordinary(Call::Receive(0));
    let mut site = site(&[sent(), vec![SiteCall::Store(47), receive]].concat());
    assert!(!site.allows(&SiteCall::Return(0)));
    assert_eq!(site.step(&SiteCall::Return(0)), Err(Breach::Memory));
}

/// A repeat, a refusal and calls of the card may come between, and the return goes to any of
/// the storings since the last acceptance.
#[test]
fn a_return_may_come_after_all_else() {
    let repeat = SiteCall::Ordinary(Call::Receive(0));
    let between = ordinary(&[Call::Receive(9), Call::Choose(vec![]), Call::Read(0)]);
    let calls = [
        sent(),
        vec![repeat.clone(), SiteCall::Store(47), SiteCall::Store(47)],
        vec![repeat.clone()],
        between,
        vec![SiteCall::Return(0), repeat],
    ];
    let site = site(&calls.concat());
    assert_eq!(site.system().memory(), [7, 0, 0, 0, 0xdd, 0xdd, 0xdd, 0xdd]);
    assert!(site.system().book().is_settled());
}

/// A storing in a buffer that is too short keeps nothing, and there is no return to it.
#[test]
fn a_refused_storing_keeps_nothing() {
    let mut site = site(&sent());
    let refused = |number| Ok(SiteOutcome::Refusal(Some(number)));
    assert_eq!(site.step(&SiteCall::Store(46)), refused(19));
    assert_eq!(site.kept(), 0);
    assert_eq!(site.step(&SiteCall::Return(0)), refused(15));
    let receive = SiteCall::Ordinary(Call::Receive(0));
    assert!(matches!(site.step(&receive), Ok(SiteOutcome::Ordinary(_))));
}

/// Lists that are tried until one finds a fault.
const MOST_LISTS: u64 = 400;

/// Whether the premises hold of this list over the rules' store; then the demand has to.
fn passes(made: &Made) -> bool {
    let mut site = Site::new(&made.setting, Store::Sound);
    made.calls.iter().all(|call| {
        let allowed = site.allows(call);
        assert!(!allowed || site.step(call).is_ok(), "{call:?}");
        allowed
    })
}

/// Each by a list that keeps the demand over the rules' store.
#[test]
fn every_wrong_store_is_found() {
    for store in Store::FAULTY {
        let found = (0..MOST_LISTS).find_map(|seed| {
            let profile = Profile::any(&mut Rng::new(seed));
            let made = make(store, seed, profile, 300);
            made.breach.clone().filter(|_| passes(&made))
        });
        println!("{store:?}: {found:?}");
        assert!(found.is_some(), "{store:?} is not found");
    }
}
