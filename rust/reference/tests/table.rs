//! A table on lists: demand 3 for each of its cards, that no card sees what the others do,
//! and wrong tables, each of which one of these or a comparison of answers finds. `LW_SEED`
//! chooses the seed and `LW_LISTS` the number of lists.

use reference::calls::Program;
use reference::demand::Breach;
use reference::ends::{Sound, Start};
use reference::faults::{FaultyTables, TableFault, TableFoundBy};
use reference::host::Answer;
use reference::list::Call;
use reference::rng::Rng;
use reference::script::Tables;
use reference::settings::{count_from_env, number_from_env};
use reference::table::Region;
use reference::table_lists::Met;
use reference::table_lists::isolation::{self, Leak};
use reference::table_lists::several::{self, Broken, Several, TableCall};
use reference::wire::{self, Message};
use std::sync::LazyLock;

const CALLS: usize = 800;
const STEPS: usize = 250;

#[test]
fn each_card_keeps_the_demand_after_every_call() {
    let seed = number_from_env("LW_SEED", 1);
    let lists = count_from_env("LW_LISTS", 400);
    let mut rng = Rng::new(seed);
    let mut met = Met::default();
    for list in 0..lists {
        let made = several::make(Sound, rng.next_u64(), CALLS);
        assert_eq!(made.broken, None, "list {list} of seed {seed}");
        assert!(made.settled, "list {list} of seed {seed}");
        assert_eq!(several::check(Sound, &made), Ok(()), "list {list}");
        met.add(&made.met);
    }
    println!("seed {seed}, {lists} lists: {met:?}");
    if lists >= 400 {
        assert_eq!(met.missed(&several::MET), [""; 0]);
    }
}

#[test]
fn no_card_sees_what_the_others_do() {
    let seed = number_from_env("LW_SEED", 1);
    let lists = count_from_env("LW_LISTS", 400);
    let mut rng = Rng::new(seed);
    let mut met = Met::default();
    for list in 0..lists {
        let twins = isolation::make(rng.next_u64(), STEPS);
        let isolated = isolation::isolated(&Sound, &twins);
        assert_eq!(isolated, Ok(()), "list {list} of seed {seed}");
        met.add(&twins.met);
    }
    println!("seed {seed}, {lists} pairs of lists: {met:?}");
    if lists >= 400 {
        assert_eq!(met.missed(&isolation::MET), [""; 0]);
    }
}

/// Lists that are tried until one finds a fault, and lists that must find none.
const MOST_LISTS: u64 = 300;
const LISTS: u64 = 100;

/// What is broken, in one of so many lists that keep demand 3 at the rules' table.
fn broken_by(
    fault: Option<TableFault>,
    lists: u64,
    sentence: fn(&Broken) -> bool,
) -> Option<Broken> {
    (0..lists).find_map(|seed| {
        let made = several::make(FaultyTables(fault), seed, CALLS);
        let broken = made.broken.clone().filter(sentence)?;
        match several::check(Sound, &made) {
            Ok(()) => Some(broken),
            Err(Broken::Premise) => None,
            Err(sound) => panic!("seed {seed}: without a fault {sound:?}"),
        }
    })
}

/// Whether this or, if none is given, anything at all tells apart one of so many pairs of
/// lists that the rules' table does not.
fn is_leaked_by(fault: Option<TableFault>, lists: u64, leak: Option<Leak>) -> bool {
    (0..lists).any(|seed| {
        let twins = isolation::make(seed, STEPS);
        assert_eq!(isolation::isolated(&Sound, &twins), Ok(()), "seed {seed}");
        match isolation::isolated(&FaultyTables(fault), &twins) {
            Ok(()) => false,
            Err((_, found)) => leak.is_none_or(|leak| leak == found),
        }
    })
}

/// A script with the answers of the rules' table.
type Answered = Vec<(Vec<u8>, String)>;

static SCRIPTS: LazyLock<Vec<Answered>> = LazyLock::new(|| {
    let scripts = (0..4).map(|seed| {
        let mut tables = Tables::new(seed);
        (0..12_000).map(|_| tables.next_line()).collect()
    });
    scripts.collect()
});

/// The first words of the lines at which scripts first differ.
fn differing(fault: Option<TableFault>) -> Vec<String> {
    let words = SCRIPTS.iter().filter_map(|script| {
        let mut program = Program::new(FaultyTables(fault));
        let mut lines = script.iter();
        let (line, _) = lines.find(|(line, answer)| program.line(line) != *answer)?;
        let word = line.split(|byte| *byte == b' ').next()?;
        Some(String::from_utf8_lossy(word).into_owned())
    });
    words.collect()
}

fn assert_found_by_demand_3(fault: TableFault, sentence: fn(&Broken) -> bool) {
    assert_eq!(fault.found_by(), TableFoundBy::Demand3);
    let broken = broken_by(Some(fault), MOST_LISTS, sentence);
    println!("{fault:?}: {broken:?}");
    assert!(broken.is_some());
}

/// By each of these leaks, while demand 3 holds of lists whose writes are inside regions.
fn assert_found_by_isolation(fault: TableFault, leaks: &[Leak]) {
    assert_eq!(fault.found_by(), TableFoundBy::Isolation);
    for leak in leaks {
        let leaked = is_leaked_by(Some(fault), MOST_LISTS, Some(*leak));
        assert!(leaked, "{leak:?}");
    }
    assert_eq!(broken_by(Some(fault), LISTS, |_| true), None);
}

/// While the lists find at most that a card may not register.
fn assert_found_by_comparison(fault: TableFault, word: &str) {
    assert_eq!(fault.found_by(), TableFoundBy::Comparison);
    let differing = differing(Some(fault));
    println!("{fault:?}: {differing:?}");
    assert!(differing.iter().any(|found| found == word));
    assert!(!is_leaked_by(Some(fault), LISTS, None));
    let no_refusal = |broken: &Broken| !matches!(broken, Broken::Refused(_));
    assert_eq!(broken_by(Some(fault), LISTS / 5, no_refusal), None);
}

fn is_demand(broken: &Broken) -> bool {
    matches!(broken, Broken::Demand(..))
}

fn is_memory(broken: &Broken) -> bool {
    matches!(broken, Broken::Memory | Broken::Demand(_, Breach::Memory))
}

macro_rules! found_by {
    ($($name:ident: $fault:ident, $found_by:ident, $how:expr;)*) => {
        const LOOKED_FOR: &[TableFault] = &[$(TableFault::$fault,)*];

        mod is_found {
            use super::*;

            $(#[test]
            fn $name() {
                $found_by(TableFault::$fault, $how);
            })*
        }
    };
}

found_by! {
    a_table_that_serves_all_by_the_first_card:
        FirstForAll, assert_found_by_demand_3, is_demand;
    a_table_that_keeps_the_pair_of_a_removed_card:
        KeepsRemovedPair, assert_found_by_demand_3, is_demand;
    a_table_whose_addresses_count_from_memorys_start:
        FromMemorysStart, assert_found_by_demand_3, is_memory;
    a_table_that_wants_memory_for_all_its_cards:
        ShortForAny, assert_found_by_demand_3, is_demand;
    a_table_that_moves_pairs_without_their_regions:
        RegionsStay, assert_found_by_demand_3, is_memory;
    a_table_that_writes_past_a_regions_end:
        WritesPastEnd, assert_found_by_isolation, &[Leak::Region, Leak::Outside];
    a_table_that_judges_overlap_by_the_first_byte:
        OverlapByFirstByte, assert_found_by_isolation, &[Leak::Region];
    a_table_that_is_full_before_all_else: FullFirst, assert_found_by_comparison, "register";
    a_table_that_reads_the_layout_before_a_short_memory:
        ShortAfterLayout, assert_found_by_comparison, "deliver";
    a_table_in_which_touching_regions_overlap:
        TouchingOverlaps, assert_found_by_comparison, "register";
    a_table_that_adds_a_regions_end_in_64_bits:
        EndIn64Bits, assert_found_by_comparison, "register";
    a_table_that_looks_for_overlap_before_memorys_end:
        OverlapBeforeOutside, assert_found_by_comparison, "register";
    a_table_that_uses_each_place_once: PlacesUsedOnce, assert_found_by_comparison, "register";
    a_table_that_looks_at_memory_before_the_ids:
        ShortBeforeIds, assert_found_by_comparison, "deliver";
    a_table_that_acknowledges_to_its_first_card:
        AcknowledgesFirst, assert_found_by_comparison, "deliver";
    a_table_that_adopts_pairs_of_another_host:
        AdoptsOthersPairs, assert_found_by_comparison, "adopt";
}

#[test]
fn every_fault_is_looked_for() {
    let mut looked_for = LOOKED_FOR.to_vec();
    looked_for.sort_by_key(|fault| *fault as usize);
    assert_eq!(looked_for, TableFault::ALL);
}

/// What one card does shows in another's answers and pair where both have one pair, and in
/// its bytes where both have one region.
#[test]
fn lists_that_differ_find_pairs_and_regions_in_common() {
    for (fault, leak) in [
        (TableFault::FirstForAll, Leak::Answer),
        (TableFault::FirstForAll, Leak::Pair),
        (TableFault::FromMemorysStart, Leak::Region),
        (TableFault::FromMemorysStart, Leak::Outside),
    ] {
        let leaked = is_leaked_by(Some(fault), MOST_LISTS, Some(leak));
        assert!(leaked, "{fault:?} by {leak:?}");
    }
}

/// Each fault shows in answers and bytes, whoever else finds it.
#[test]
fn every_fault_shows_in_the_answers() {
    for fault in TableFault::ALL {
        assert!(!differing(Some(*fault)).is_empty(), "{fault:?}");
    }
}

/// The two tables are written differently: where they agree, it is the lists that do not
/// find a fault.
#[test]
fn without_a_fault_nothing_is_found() {
    assert_eq!(broken_by(None, LISTS, |_| true), None);
    assert!(!is_leaked_by(None, LISTS, None));
    assert_eq!(differing(None), [""; 0]);
}

/// A card of ID 2 at a table of ID 1 and 20 bytes, whose first frame was shown.
fn sent() -> Several<Sound> {
    let mut several = Several::new(Sound, 1, &[0; 20]);
    for call in [REGISTER].into_iter().chain(SENT.map(of)) {
        assert!(several.step(&call).is_ok(), "{call:?}");
    }
    several
}

const REGISTER: TableCall = TableCall::Register {
    source: 2,
    region: Region {
        first: 10,
        length: 8,
    },
    limit: 100,
    start: Start {
        frame: 0,
        transaction: 0,
    },
};

const SENT: [Call; 4] = [
    Call::Open {
        count: 0,
        address: 4,
        value: 7,
    },
    Call::Add {
        transaction: 0,
        address: 8,
        data: Vec::new(),
    },
    Call::Seal,
    Call::Show(0),
];

fn of(call: Call) -> TableCall {
    TableCall::Of {
        source: 2,
        call,
        lent: 20,
    }
}

/// The caller lends the same memory each time: demand 3 for a card needs that as well.
#[test]
fn a_memory_that_ends_too_soon_breaks_the_demand() {
    let receive = |lent| TableCall::Of {
        source: 2,
        call: Call::Receive(0),
        lent,
    };
    assert!(sent().step(&receive(18)).is_ok());
    let broken = sent().step(&receive(17));
    let refused = Answer::Refused {
        number: 31,
        place: 0,
    };
    let Err(Broken::Demand(2, Breach::Answer(_, answer))) = broken else {
        panic!("{broken:?}");
    };
    assert_eq!(answer, refused);
}

/// It is refused while its source is gone, and would be accepted when it is there again:
/// that is why it counts as invented.
#[test]
fn a_frame_left_over_is_one_that_nobody_sent() {
    let mut several = sent();
    let frame = wire::write_frame(
        1,
        2,
        0,
        &[Message {
            transaction: 0,
            completion_address: 4,
            completion_value: 7,
            count: 0,
            data_address: 8,
            data: &[],
        }],
    );
    let stray = TableCall::Stray(frame);
    assert!(several.step(&of(Call::Receive(0))).is_ok());
    assert!(several.step(&TableCall::Remove(2)).is_ok());
    assert!(several.step(&stray).is_ok());
    assert!(several.step(&REGISTER).is_ok());
    let Err(Broken::Stray(Answer::Accepted { number: 0, .. })) = several.step(&stray) else {
        panic!("the fresh pair accepts it");
    };
}
