//! Demand 3 on lists: random ones on the reference's card and host against the plain
//! book after every call, and small ones at the edge of the premises. `LW_SEED` chooses
//! the seed, `LW_LISTS` the number of short lists and `LW_LONG_LISTS` that of long ones.

use reference::book::{Acknowledgement, Expected};
use reference::demand::{Breach, Care, Setting, System};
use reference::ends::{Sound, Start};
use reference::host::Answer;
use reference::list::{Call, Outcome};
use reference::premises::{self, Forbidden};
use reference::rng::Rng;
use reference::settings::{count_from_env, number_from_env};
use reference::simulator::{Profile, Tally, check_list, come_round, simulate};

/// Fails unless each was met; lists without these are lists about next to nothing.
fn assert_met(tally: &Tally, met: &[(&str, u64)], refusals: &[usize]) {
    for (what, times) in met {
        assert!(*times > 0, "{what} was not met: {tally:?}");
    }
    for number in refusals {
        let times = tally.refused[*number];
        assert!(times > 0, "refusal {number} was not met: {tally:?}");
    }
}

fn met_by_all(tally: &Tally) -> Vec<(&'static str, u64)> {
    vec![
        ("a lost frame", tally.lost_frames),
        ("a lost acknowledgement", tally.lost_acknowledgements),
        ("a repeat", tally.repeats),
        ("a frame out of order", tally.out_of_order),
        ("a run of several frames", tally.runs),
        ("a copy of an empty part", tally.empty_copies),
        ("a copy of a lent acknowledgement", tally.lent_copies),
        ("a transaction of count 0", tally.bare),
        ("a message without data", tally.empty_messages),
        ("number 0 after 65,535", tally.frame_wraps),
        ("a list with all finished", tally.settled),
    ]
}

#[test]
fn short_lists_keep_the_demand_after_every_call() {
    let seed = number_from_env("LW_SEED", 1);
    let lists = count_from_env("LW_LISTS", 400);
    let mut rng = Rng::new(seed);
    let mut tally = Tally::default();
    for list in 0..lists {
        let list_seed = rng.next_u64();
        let profile = Profile::any(&mut rng);
        let drained = list % 3 == 0;
        let run = simulate(&Sound, list_seed, profile, 500, drained, Care::EveryCall);
        assert_eq!(
            run.breach, None,
            "list {list} of seed {seed}: {:?}",
            run.setting
        );
        tally.add(&run.tally);
    }
    println!("seed {seed}, {lists} lists: {tally:?}");
    if lists >= 400 {
        let mut met = met_by_all(&tally);
        met.push(("transaction 0 after the last", tally.transaction_wraps));
        assert_met(&tally, &met, &[1, 20, 21, 22, 23, 24, 25, 27]);
    }
}

#[test]
fn long_lists_keep_the_demand_when_numbers_come_round() {
    let seed = number_from_env("LW_SEED", 1);
    for list in 0..count_from_env("LW_LONG_LISTS", 1) {
        let profile = Profile::long(66_000);
        let run = simulate(&Sound, seed + list, profile, 650_000, true, Care::LongList);
        assert_eq!(run.breach, None, "list {list} of seed {seed}");
        let mut tally = Tally::default();
        tally.add(&run.tally);
        println!("seed {seed}, list {list}: {tally:?}");
        let mut met = met_by_all(&tally);
        met.extend([
            ("a frame exactly 32,768 late", tally.latest_frames),
            ("an acknowledgement so late", tally.latest_acknowledgements),
            ("a run of 255 frames", tally.longest_runs),
            ("a transaction that outlives its number", tally.came_round),
        ]);
        assert_met(&tally, &met, &[1, 20, 22, 23, 24, 25]);
    }
}

#[test]
fn a_transaction_outlives_its_last_frames_number() {
    let (setting, calls) = come_round();
    assert_eq!(check_list(&Sound, &setting, &calls, Care::LongList), Ok(()));
    let mut system = System::new(&Sound, &setting, Care::LongList);
    let outcomes: Vec<_> = calls
        .iter()
        .map(|call| system.step(call).unwrap())
        .collect();
    // Of the 32 openings at the end all but the last have room.
    let refused = outcomes.iter().filter_map(|outcome| outcome.card_refusal());
    assert_eq!(refused.collect::<Vec<_>>(), [20]);
    assert_eq!(outcomes.last().unwrap().card_refusal(), Some(20));
}

fn setting(memory: usize) -> Setting {
    Setting {
        card: 2,
        host: 1,
        limit: 100,
        memory: vec![0; memory],
        start: Start::default(),
    }
}

fn open(count: u16, address: u32) -> Call {
    Call::Open {
        count,
        address,
        value: 0xdddd_dddd,
    }
}

fn add(transaction: u32, address: u32, data: &[u8]) -> Call {
    Call::Add {
        transaction,
        address,
        data: data.to_vec(),
    }
}

/// Frames of one message each, all but the last delivered and released; the first copy
/// of all is then so late.
fn brought_late(late: usize) -> (System<Sound>, Call) {
    let mut system = System::new(&Sound, &setting(4), Care::LongList);
    system.step(&open(u16::MAX, 0)).unwrap();
    for frame in 0..late {
        for call in [
            add(0, 0, &[]),
            Call::Seal,
            Call::Show(frame as u16),
            Call::Receive(frame),
            Call::Read(frame),
        ] {
            assert_eq!(system.step(&call).unwrap().card_refusal(), None);
        }
    }
    let call = Call::Receive(0);
    assert_eq!(premises::lateness(system.book(), &call), Some(late as i64));
    (system, call)
}

#[test]
fn a_frame_may_be_32768_late_and_not_one_more() {
    let (mut system, call) = brought_late(32_768);
    assert!(premises::in_time(system.book(), &call));
    system.step(&call).unwrap();

    let (mut system, call) = brought_late(32_769);
    assert!(!premises::in_time(system.book(), &call));
    let refused = Answer::Refused {
        number: 6,
        place: 0,
    };
    let expected = Expected::Again { frame: 0, run: 255 };
    let breach = Breach::Answer(expected, refused);
    assert_eq!(system.step(&call), Err(breach));
}

/// The run that an answer acknowledges changes nothing of that: what counts is its first
/// number, however near its last one is.
#[test]
fn an_acknowledgement_is_late_by_its_runs_first_number() {
    for late in [300, 32_768] {
        let (mut system, call) = brought_late(late);
        system.step(&call).unwrap();
        let acknowledgements = system.book().acknowledgements();
        let copy = acknowledgements.len() - 1;
        let expected = Acknowledgement { first: 0, run: 255 };
        assert_eq!(acknowledgements[copy], expected);
        let call = Call::Read(copy);
        assert_eq!(premises::lateness(system.book(), &call), Some(late as i64));
        assert!(premises::in_time(system.book(), &call));
        assert_eq!(system.step(&call), Ok(Outcome::Read));
        // One more frame, and it is one too many.
        for call in [
            add(0, 0, &[]),
            Call::Seal,
            Call::Show(late as u16),
            Call::Receive(late),
            Call::Read(copy + 1),
        ] {
            system.step(&call).unwrap();
        }
        assert_eq!(premises::in_time(system.book(), &call), late < 32_768);
    }
}

/// One acknowledgement of a repeat lets the card release all that the host has.
#[test]
fn one_acknowledgement_releases_a_run() {
    let mut calls = vec![open(u16::MAX, 0)];
    for frame in 0..64 {
        calls.extend([add(0, 0, &[]), Call::Seal, Call::Show(frame)]);
    }
    // Frame 0 last, so that each is ahead of the hole until then.
    calls.extend((0..64).rev().map(Call::Receive));
    let (mut system, breach) = run(4, &calls);
    assert_eq!(breach, None);
    assert_eq!(system.book().lowest_not_released(), 0);
    assert_eq!(system.step(&Call::Read(63)), Ok(Outcome::Read));
    assert_eq!(system.book().lowest_not_released(), 64);
    assert_eq!(system.step(&Call::Choose(vec![])), Ok(Outcome::Refused(25)));
}

/// Runs calls of which none is refused, up to the first breach.
fn run(memory: usize, calls: &[Call]) -> (System<Sound>, Option<Breach>) {
    let mut system = System::new(&Sound, &setting(memory), Care::EveryCall);
    for call in calls {
        match system.step(call) {
            Ok(outcome) => assert_eq!(outcome.card_refusal(), None, "{call:?}"),
            Err(breach) => return (system, Some(breach)),
        }
    }
    (system, None)
}

/// What is wrong after these calls, with them and with their writes.
fn after(memory: usize, calls: &[Call]) -> (Option<Breach>, Result<(), Forbidden>) {
    let (system, breach) = run(memory, calls);
    (breach, premises::writes_allowed(system.book(), memory))
}

#[test]
fn one_byte_twice_in_a_transaction_breaks_the_demand() {
    let calls = [
        open(2, 4),
        add(0, 0, &[1]),
        Call::Seal,
        Call::Show(0),
        add(0, 0, &[2]),
        Call::Seal,
        Call::Show(1),
        Call::Receive(1),
        Call::Receive(0),
    ];
    let expected = (Some(Breach::Memory), Err(Forbidden::Twice(0)));
    assert_eq!(after(8, &calls), expected);
}

#[test]
fn a_common_byte_of_two_unfinished_ones_breaks_the_demand() {
    let calls = [
        open(1, 4),
        open(1, 8),
        add(0, 0, &[1]),
        Call::Seal,
        Call::Show(0),
        add(1, 0, &[2]),
        Call::Seal,
        Call::Show(1),
        Call::Receive(1),
        Call::Receive(0),
    ];
    let expected = (Some(Breach::Memory), Err(Forbidden::Together(0, 1)));
    assert_eq!(after(12, &calls), expected);
}

/// No two unfinished ones have both added byte 0 at any moment, and nothing is lost or
/// out of order: what a transaction writes has to be taken over the whole list.
#[test]
fn a_common_byte_written_after_the_other_finished_breaks_it_too() {
    let calls = [
        open(1, 4),
        open(1, 8),
        add(1, 0, &[2]),
        Call::Seal,
        Call::Show(0),
        Call::Receive(0),
        Call::Read(0),
        add(0, 0, &[1]),
        Call::Seal,
        Call::Show(1),
        Call::Receive(1),
    ];
    let expected = (Some(Breach::Memory), Err(Forbidden::Together(0, 1)));
    assert_eq!(after(12, &calls), expected);
}

#[test]
fn a_write_outside_memory_breaks_the_demand() {
    let refused = |number| Answer::Refused { number, place: 0 };
    // The data's end, the place of no bytes, and a completion that is not due.
    for (address, data, completion, number) in
        [(7, &[1, 2][..], 0, 11), (9, &[], 0, 11), (0, &[], 5, 12)]
    {
        let calls = [
            open(2, completion),
            add(0, address, data),
            Call::Seal,
            Call::Show(0),
            Call::Receive(0),
        ];
        let (breach, allowed) = after(8, &calls);
        assert!(matches!(breach, Some(Breach::Answer(_, answer)) if answer == refused(number)));
        assert_eq!(allowed, Err(Forbidden::Outside(0)));
    }
}

/// A transaction opened later may write over a finished one, and a late copy of the
/// finished one's frame does not bring its bytes back.
#[test]
fn later_transactions_write_over_finished_ones() {
    let calls = [
        open(1, 4),
        add(0, 0, &[1, 2, 3]),
        Call::Seal,
        Call::Choose(vec![]),
        Call::Receive(0),
        Call::Read(0),
        open(1, 4),
        add(1, 1, &[9]),
        Call::Seal,
        Call::Choose(vec![]),
        Call::Receive(1),
        Call::Receive(0),
        Call::Read(2),
        Call::Read(1),
    ];
    let (system, breach) = run(8, &calls);
    assert_eq!(breach, None);
    assert_eq!(premises::writes_allowed(system.book(), 8), Ok(()));
    assert_eq!(system.memory(), [1, 9, 3, 0, 0xdd, 0xdd, 0xdd, 0xdd]);
    assert!(system.book().is_settled());
}
