//! Every fault is found: by the check of demand 3 where that demand rules it out, and
//! otherwise by comparing answers and bytes, with demand 3 shown to hold. Each list and
//! script that finds a fault is one on which the ends without a fault pass.

use reference::calls::Program;
use reference::demand::{Breach, Care, Setting};
use reference::ends::{Sound, Start};
use reference::faults::{Fault, Faulty, FoundBy};
use reference::list::Call;
use reference::rng::Rng;
use reference::script::{Wild, of_list};
use reference::simulator::{Failure, Profile, check_list, come_round, simulate};
use std::sync::LazyLock;

/// Which lists have to find a fault.
#[derive(Clone, Copy, PartialEq, Eq)]
enum Lists {
    /// Short ones of fresh ends.
    Fresh,
    /// Short ones of ends near the end of their numbers.
    NearTheEnd,
    /// One of fresh ends that goes on until the numbers wrap.
    Long,
    /// The one below, in which a card's window is full.
    FullWindow,
}

/// Lists that are tried until one finds a fault, and lists that must find none.
const MOST_LISTS: u64 = 400;
const LISTS: u64 = 120;
const CALLS: usize = 600;
const CALLS_OF_LONG: usize = 700_000;

fn profile(seed: u64, lists: Lists) -> Profile {
    let any = Profile::any(&mut Rng::new(seed));
    match lists {
        Lists::Fresh => Profile {
            start: Start::default(),
            ..any
        },
        Lists::NearTheEnd => Profile {
            start: Start {
                frame: u16::MAX - 20,
                transaction: u32::MAX - 10,
            },
            ..any
        },
        Lists::Long | Lists::FullWindow => Profile::long(0),
    }
}

/// All 32 transactions are open, and the lowest one's frame is the lowest unreleased one
/// and not accepted, when one more is asked for and sent.
fn full_window() -> (Setting, Vec<Call>) {
    let add = |transaction| Call::Add {
        transaction,
        address: 0,
        data: Vec::new(),
    };
    let mut calls: Vec<Call> = (0..32)
        .map(|place| Call::Open {
            count: 1,
            address: 4 * place,
            value: place,
        })
        .collect();
    calls.extend([add(1), Call::Seal, Call::Show(0), Call::Receive(0)]);
    calls.extend([add(0), Call::Seal, Call::Read(0)]);
    calls.push(Call::Open {
        count: 1,
        address: 128,
        value: 0,
    });
    calls.extend([add(32), Call::Seal, Call::Show(2), Call::Receive(1)]);
    let setting = Setting {
        memory: vec![0; 132],
        ..come_round().0
    };
    (setting, calls)
}

/// The first of so many lists that breaks the demand on these ends, and how. A list that
/// keeps no premise on ends without a fault is passed over.
fn first_breach(ends: Faulty, lists: Lists, count: u64) -> Option<(Breach, usize)> {
    (0..count).find_map(|seed| {
        let (breach, setting, calls) = breach_of(ends, lists, seed)?;
        let sound = check_list(&Sound, &setting, &calls, Care::LongList);
        let fault_free = check_list(&Faulty(None), &setting, &calls, Care::LongList);
        assert_eq!(sound, fault_free);
        match sound {
            Ok(()) => Some((breach, calls.len())),
            Err(Failure::Premise) => None,
            Err(failure) => panic!("seed {seed}: without a fault {failure:?}"),
        }
    })
}

/// What the seed's list breaks on these ends, with the list.
fn breach_of(ends: Faulty, lists: Lists, seed: u64) -> Option<(Breach, Setting, Vec<Call>)> {
    let calls = match lists {
        Lists::FullWindow => {
            let (setting, calls) = full_window();
            return match check_list(&ends, &setting, &calls, Care::EveryCall) {
                Err(Failure::Breach(_, breach)) => Some((breach, setting, calls)),
                _ => None,
            };
        }
        Lists::Long => CALLS_OF_LONG,
        _ => CALLS,
    };
    let run = simulate(
        &ends,
        seed,
        profile(seed, lists),
        calls,
        false,
        Care::LongList,
    );
    run.breach.map(|breach| (breach, run.setting, run.calls))
}

fn assert_found_by_demand_3(fault: Fault, lists: Lists, sentence: fn(&Breach) -> bool) {
    assert_eq!(fault.found_by(), FoundBy::Demand3);
    let found = first_breach(Faulty(Some(fault)), lists, MOST_LISTS);
    let (breach, calls) = found.expect("a list finds the fault");
    println!("{fault:?}: {breach:?} at call {calls}");
    assert!(sentence(&breach), "another sentence is broken");
}

fn is_answer(breach: &Breach) -> bool {
    matches!(breach, Breach::Answer(..))
}

fn is_memory(breach: &Breach) -> bool {
    *breach == Breach::Memory
}

fn is_released(breach: &Breach) -> bool {
    *breach == Breach::Released
}

macro_rules! found_by_demand_3 {
    ($($name:ident: $fault:ident, $lists:ident, $sentence:ident;)*) => {
        const FOUND_BY_DEMAND_3: &[Fault] = &[$(Fault::$fault,)*];

        mod demand_3_finds {
            use super::*;

            $(#[test]
            fn $name() {
                assert_found_by_demand_3(Fault::$fault, Lists::$lists, $sentence);
            })*
        }
    };
}

found_by_demand_3! {
    s4a_a_host_that_refuses_every_frame: HostRefusesAll, Fresh, is_answer;
    s4b_a_host_that_answers_again_to_all: HostAgainToAll, Fresh, is_answer;
    s4d_a_host_that_takes_its_first_frame_only: HostTakesFirstOnly, Fresh, is_answer;
    s4d_a_host_that_writes_its_first_frame_only: HostWritesFirstOnly, Fresh, is_memory;
    s4e_a_host_that_invents_messages: HostInventsMessages, Fresh, is_answer;
    s4e_a_host_that_invents_bytes: HostInventsBytes, Fresh, is_answer;
    x1_a_host_that_compares_frames_by_less_than: HostFramesByLessThan, Long, is_answer;
    x1_a_host_that_compares_transactions_by_less_than:
        HostTransactionsByLessThan, NearTheEnd, is_answer;
    x1_a_card_that_compares_frames_by_less_than: CardAcknowledgesByLessThan, Long, is_released;
    c16_a_card_that_releases_what_is_not_acknowledged:
        CardAcknowledgesThrough, Fresh, is_released;
    c18_a_card_that_finishes_a_frame_early: CardFinishesEarly, FullWindow, is_answer;
    x4_a_host_that_is_silent_on_repeats: HostSilentOnRepeats, Fresh, is_answer;
    h19_a_host_whose_runs_are_one_too_long: HostRunOneTooLong, Fresh, is_answer;
    h19_a_host_that_acknowledges_one_too_many: HostAcknowledgesOneMore, Fresh, is_released;
    h19_a_host_that_judges_runs_before_the_effect: HostRunBeforeEffect, Fresh, is_answer;
    h19_a_host_that_counts_no_number_behind: HostRunOfMarksOnly, Fresh, is_answer;
    h19_a_host_with_runs_of_256: HostRunUpTo256, Long, is_answer;
    h19_a_host_with_runs_of_64_at_most: HostRunUpTo64, Long, is_answer;
    h19_a_host_that_tells_the_run_from_the_next_number: HostRunFromNext, Fresh, is_answer;
    h19_a_host_that_acknowledges_from_the_next_number:
        HostAcknowledgesFromNext, Fresh, is_released;
    h19_a_host_that_acknowledges_repeats_alone: HostRepeatsAlone, Fresh, is_answer;
    h19_a_host_that_acknowledges_every_frame_alone: HostAcknowledgesAlone, Fresh, is_released;
    a_host_with_a_window_of_63_frames: HostFrames63, Fresh, is_answer;
    a_host_with_a_window_of_31_transactions: HostTransactions31, Fresh, is_answer;
    a_card_with_a_window_of_65_frames: CardFrames65, Fresh, is_answer;
    a_card_with_a_window_of_33_transactions: CardTransactions33, Fresh, is_answer;
    a_host_that_takes_the_latest_frame_for_one_ahead: HostBehindFrom32769, Long, is_answer;
}

/// A script with the answers of the reference's ends.
type Answered = Vec<(Vec<u8>, String)>;

/// Scripts of lines of any kind, and of lists of demand 3.
static SCRIPTS: LazyLock<Vec<Answered>> = LazyLock::new(|| {
    let wild = (0..4).map(|seed| {
        let mut wild = Wild::new(seed);
        (0..8_000).map(|_| wild.next_line()).collect()
    });
    let lists = (0..60).map(|seed| {
        let profile = profile(seed, Lists::Fresh);
        let run = simulate(&Sound, seed, profile, CALLS, true, Care::LongList);
        answered(&of_list(&run.setting, &run.calls, 5))
    });
    wild.chain(lists).collect()
});

/// The script in which frame numbers wrap.
static ROUND: LazyLock<Vec<Answered>> = LazyLock::new(|| {
    let (setting, calls) = come_round();
    vec![answered(&of_list(&setting, &calls, 1_000))]
});

fn answered(script: &str) -> Answered {
    let mut program = Program::new(Sound);
    let lines = script.lines().map(str::as_bytes);
    lines
        .map(|line| (line.to_vec(), program.line(line)))
        .collect()
}

/// The first line that these ends answer otherwise, by its first word.
fn first_difference(ends: Faulty, script: &Answered) -> Option<String> {
    let mut program = Program::new(ends);
    let (line, _) = script
        .iter()
        .find(|(line, answer)| program.line(line) != *answer)?;
    let word = line.split(|byte| *byte == b' ').next()?;
    Some(String::from_utf8_lossy(word).into_owned())
}

fn assert_found_by_comparison(fault: Fault, scripts: &[Answered], word: &str) {
    assert_eq!(fault.found_by(), FoundBy::Comparison);
    let ends = Faulty(Some(fault));
    assert_eq!(first_breach(ends, Lists::Fresh, LISTS), None);
    let found = |script| first_difference(ends, script).is_some_and(|found| found == word);
    assert!(scripts.iter().any(found), "no script finds it at {word}");
}

macro_rules! found_by_comparison_only {
    ($($name:ident: $fault:ident, $scripts:ident, $word:literal;)*) => {
        const FOUND_BY_COMPARISON: &[Fault] = &[$(Fault::$fault,)*];

        mod only_comparison_finds {
            use super::*;

            $(#[test]
            fn $name() {
                assert_found_by_comparison(Fault::$fault, &$scripts, $word);
            })*
        }
    };
}

found_by_comparison_only! {
    s4c_a_card_that_adds_nothing: CardAddsNothing, SCRIPTS, "add";
    x2_a_card_that_looks_for_the_last_frame_in_its_window: CardFinishedByWindow, ROUND, "open";
    x2_a_card_that_asks_whether_the_last_frame_is_behind: CardFinishedByHalf, ROUND, "open";
    x3_a_host_that_writes_before_judging: HostWritesBeforeJudging, SCRIPTS, "memory";
    x4_a_host_that_acknowledges_no_repeat: HostRepeatsUnacknowledged, SCRIPTS, "receive";
    x5_a_host_that_adds_in_32_bits: HostSumsIn32Bits, SCRIPTS, "receive";
    a_host_with_a_window_of_65_frames: HostFrames65, SCRIPTS, "receive";
    a_host_with_a_window_of_33_transactions: HostTransactions33, SCRIPTS, "receive";
    a_card_with_a_window_of_63_frames: CardFrames63, SCRIPTS, "add";
    a_card_with_a_window_of_31_transactions: CardTransactions31, SCRIPTS, "open";
    a_host_that_takes_the_last_frame_ahead_for_an_old_one: HostBehindFrom32767, SCRIPTS, "receive";
}

#[test]
fn every_fault_is_looked_for() {
    let mut looked_for = [FOUND_BY_DEMAND_3, FOUND_BY_COMPARISON].concat();
    looked_for.sort_by_key(|fault| *fault as usize);
    assert_eq!(looked_for, Fault::ALL);
}

#[test]
fn demand_3_holds_of_a_card_that_forgets_what_is_finished() {
    let (setting, calls) = come_round();
    for fault in [Fault::CardFinishedByWindow, Fault::CardFinishedByHalf] {
        let ends = Faulty(Some(fault));
        assert_eq!(check_list(&ends, &setting, &calls, Care::LongList), Ok(()));
    }
}

#[test]
fn without_a_fault_no_list_and_no_script_finds_one() {
    for lists in [Lists::Fresh, Lists::NearTheEnd] {
        assert_eq!(first_breach(Faulty(None), lists, LISTS), None);
    }
    for script in SCRIPTS.iter().chain(ROUND.iter()) {
        assert_eq!(first_difference(Faulty(None), script), None);
    }
}
