//! A ledger on lists of blocks with known true counts, given to it or sent by cards over a
//! network; why the premises on readings stand; and wrong ledgers, each of which such lists
//! or a comparison of answers finds. `LW_SEED` chooses the seed, `LW_BLOCKS` the number of
//! blocks that are given and `LW_LISTS` four times that of lists of each kind with a network.

use reference::calls::Program;
use reference::demand::{Care, Setting, System};
use reference::ends::{Sound, Start};
use reference::faults::{FaultyLedgers, LedgerFault, LedgerFoundBy};
use reference::ledger::Ledger;
use reference::ledger_lists::delivered::{self, Failed, Order};
use reference::ledger_lists::{self, Audit, Block, Meters, TrueReading, Wrong};
use reference::list::Call;
use reference::rng::Rng;
use reference::script::Ledgers;
use reference::settings::{count_from_env, number_from_env};
use reference::table_lists::Met;
use std::sync::LazyLock;

/// Blocks of a list, and calls of one with a network.
const BLOCKS: usize = 100;
const CALLS: usize = 400;

#[test]
fn true_bytes_are_charged_after_every_block() {
    let seed = number_from_env("LW_SEED", 1);
    let lists = count_from_env("LW_BLOCKS", 40_000).div_ceil(BLOCKS as u64);
    let mut rng = Rng::new(seed);
    let mut met = Met::default();
    for list in 0..lists {
        let run = ledger_lists::make(&Sound, rng.next_u64(), BLOCKS);
        assert_eq!(run.wrong, None, "list {list} of seed {seed}");
        met.add(&run.met);
    }
    println!("seed {seed}, {lists} lists: {met:?}");
    if lists >= 400 {
        assert_eq!(met.missed(&ledger_lists::MET), [""; 0]);
    }
}

/// Makes lists with a network, and looks at what they have met.
fn over_a_network(list: impl Fn(u64) -> Result<Met, Failed>) {
    let seed = number_from_env("LW_SEED", 1);
    let lists = count_from_env("LW_LISTS", 400).div_ceil(4);
    let mut rng = Rng::new(seed);
    let mut met = Met::default();
    for index in 0..lists {
        match list(rng.next_u64()) {
            Ok(more) => met.add(&more),
            Err(failed) => panic!("list {index} of seed {seed}: {failed:?}"),
        }
    }
    println!("seed {seed}, {lists} lists: {met:?}");
    if lists >= 100 {
        assert_eq!(met.missed(&delivered::MET), [""; 0]);
    }
}

#[test]
fn what_a_card_counts_is_charged_in_the_order_of_opening() {
    over_a_network(|seed| delivered::by_host(&Sound, seed, CALLS, Order::OfOpening, 0));
}

#[test]
fn what_a_card_counts_is_charged_if_no_subscriber_is_twice_on_the_way() {
    over_a_network(|seed| delivered::by_host(&Sound, seed, CALLS, Order::Apart, 0));
}

#[test]
fn what_a_card_counts_is_charged_over_restarts_of_the_host() {
    over_a_network(|seed| delivered::by_host(&Sound, seed, CALLS, Order::OfOpening, 5));
}

#[test]
fn what_two_cards_count_is_charged_by_one_ledger() {
    over_a_network(|seed| delivered::by_table(Sound, seed, CALLS, 2));
}

#[test]
fn what_five_cards_count_is_charged_by_one_ledger() {
    over_a_network(|seed| delivered::by_table(Sound, seed, 2 * CALLS, 5));
}

const COUNTS: u64 = 1 << 32;

fn read(subscriber: u32, count: u64) -> TrueReading {
    TrueReading { subscriber, count }
}

/// An empty ledger under audit.
fn audit() -> Audit<Ledger> {
    let meters = Meters::new(&mut Rng::new(0), &Ledger::open(), |_| true);
    Audit::new(Ledger::open(), &Ledger::open(), &meters)
}

/// What comes of blocks of one reading each.
fn one_by_one(readings: &[TrueReading]) -> (Ledger, Result<(), Wrong>) {
    let mut audit = audit();
    for reading in readings {
        match audit.take(&Block::of(&[*reading])) {
            Ok(answer) => assert_eq!(answer, Ok(())),
            Err(wrong) => return (audit.ledger().clone(), Err(wrong)),
        }
    }
    (audit.ledger().clone(), Ok(()))
}

/// A reading that comes after a later one is charged as if the counter had wrapped, and so
/// is the next that comes in time.
#[test]
fn a_late_reading_is_charged_nearly_all_counts() {
    let (ledger, in_order) = one_by_one(&[read(7, 1_000), read(7, 1_600), read(7, 2_000)]);
    assert_eq!((in_order, ledger.total(7)), (Ok(()), Some(1_000)));
    let (ledger, late) = one_by_one(&[read(7, 1_000), read(7, 2_000), read(7, 1_600)]);
    assert_eq!(late, Err(Wrong::Total(7)));
    assert_eq!(ledger.total(7), Some(1_000 + COUNTS - 400));
}

/// Blocks that are taken as they come bring readings late, even of one card.
#[test]
fn blocks_in_any_order_are_charged_wrongly() {
    let failed = (0..20).find_map(|seed| {
        let failed = delivered::by_host(&Sound, seed, CALLS, Order::AnyOrder, 0).err()?;
        let in_order = delivered::by_host(&Sound, seed, CALLS, Order::OfOpening, 0);
        assert!(in_order.is_ok(), "{in_order:?}");
        Some(failed)
    });
    let Some(Failed::Ledger(Wrong::Total(_))) = failed else {
        panic!("{failed:?}");
    };
}

/// When a transaction is complete memory has its block, until a later one writes there.
#[test]
fn a_block_that_is_read_too_late_is_a_later_one() {
    let setting = Setting {
        card: 2,
        host: 1,
        limit: 100,
        memory: vec![0; 12],
        start: Start::default(),
    };
    let mut system = System::new(&Sound, &setting, Care::EveryCall);
    let blocks = [1_000, 1_600].map(|count| Block::of(&[read(7, count)]));
    for (index, block) in blocks.iter().enumerate() {
        let calls = [
            Call::Open {
                count: 1,
                address: 8,
                value: 5,
            },
            Call::Add {
                transaction: index as u32,
                address: 0,
                data: block.bytes.clone(),
            },
            Call::Seal,
            Call::Show(index as u16),
            Call::Receive(index),
            Call::Read(index),
        ];
        for call in &calls {
            let outcome = system.step(call).expect("demand 3 holds");
            assert_eq!(outcome.card_refusal(), None, "{call:?}");
        }
        assert_eq!(system.memory()[..8], block.bytes);
    }
    // Read only now, the first reading is lost, and what was counted from it on with it.
    let mut audit = audit();
    let late = Block {
        bytes: system.memory()[..8].to_vec(),
        ..blocks[0].clone()
    };
    assert_eq!(audit.take(&late), Ok(Ok(())));
    assert_eq!(audit.take(&blocks[1]), Err(Wrong::Total(7)));
}

/// Of as many bytes as a counter has values nothing is seen.
#[test]
fn too_many_bytes_between_two_readings_are_lost() {
    let (ledger, most) = one_by_one(&[read(7, 5), read(7, 5 + COUNTS - 1)]);
    assert_eq!((most, ledger.total(7)), (Ok(()), Some(COUNTS - 1)));
    let (ledger, more) = one_by_one(&[read(7, 5), read(7, 5 + COUNTS)]);
    assert_eq!((more, ledger.total(7)), (Err(Wrong::Total(7)), Some(0)));
}

/// Readings of a refused block are none: what counts is the bytes between accepted ones.
#[test]
fn a_refused_reading_does_not_bridge_two_others() {
    let mut audit = audit();
    let half = COUNTS / 2;
    assert_eq!(audit.take(&Block::of(&[read(7, 0)])), Ok(Ok(())));
    let refused = Block::of(&[read(7, half), read(1_024, 0)]);
    assert_eq!(audit.take(&refused), Ok(Err(41)));
    let wrong = audit.take(&Block::of(&[read(7, 2 * half + 3)]));
    assert_eq!(wrong, Err(Wrong::Total(7)));
    assert_eq!(audit.ledger().total(7), Some(3));
}

/// Lists that are tried until one finds a fault, and lists that must find none.
const MOST_LISTS: u64 = 300;
const LISTS: u64 = 100;

/// What is wrong, in one of so many lists of blocks in which the rules' ledger is right.
fn wrong_by(fault: Option<LedgerFault>, lists: u64, sentence: fn(Wrong) -> bool) -> Option<Wrong> {
    (0..lists).find_map(|seed| {
        let run = ledger_lists::make(&FaultyLedgers(fault), seed, BLOCKS);
        let wrong = run.wrong.filter(|wrong| sentence(*wrong))?;
        let sound = ledger_lists::check(&Sound, &run.start, &run.meters, &run.blocks);
        assert!(sound.is_ok(), "seed {seed}: without a fault {sound:?}");
        Some(wrong)
    })
}

/// A script with the answers of the rules' ledger.
struct Script {
    start: Ledger,
    lines: Vec<(Vec<u8>, String)>,
}

impl Script {
    fn new(mut ledgers: Ledgers, lines: usize) -> Script {
        Script {
            start: ledgers.start().clone(),
            lines: (0..lines).map(|_| ledgers.next_line()).collect(),
        }
    }

    /// Whether a ledger with this fault gives another answer.
    fn finds(&self, fault: Option<LedgerFault>) -> bool {
        let mut program = Program::starting_with(FaultyLedgers(fault), &self.start);
        let mut lines = self.lines.iter();
        lines.any(|(line, answer)| program.line(line) != *answer)
    }
}

static SCRIPTS: LazyLock<Vec<Script>> = LazyLock::new(|| {
    let empty = (0..4).map(|seed| Script::new(Ledgers::new(seed), 3_000));
    let full = (0..40).map(|seed| Script::new(Ledgers::nearly_full(seed), 300));
    empty.chain(full).collect()
});

static FROM_ANY_START: LazyLock<Vec<Script>> = LazyLock::new(|| {
    let scripts = (0..40).map(|seed| Script::new(Ledgers::any_start(seed), 300));
    scripts.collect()
});

fn differs(scripts: &[Script], fault: Option<LedgerFault>) -> bool {
    scripts.iter().any(|script| script.finds(fault))
}

/// By this sentence; the answers show it as well.
fn assert_found_by_true_counts(fault: LedgerFault, sentence: fn(Wrong) -> bool) {
    assert_eq!(fault.found_by(), LedgerFoundBy::TrueCounts);
    let wrong = wrong_by(Some(fault), MOST_LISTS, sentence);
    println!("{fault:?}: {wrong:?}");
    assert!(wrong.is_some());
    assert!(differs(&SCRIPTS, Some(fault)));
}

/// While totals and sums are right until a block gets another answer than is due.
fn assert_found_by_comparison(fault: LedgerFault, (): ()) {
    assert_eq!(fault.found_by(), LedgerFoundBy::Comparison);
    assert!(differs(&SCRIPTS, Some(fault)));
    let no_answer = |wrong| !is_answer(wrong);
    assert_eq!(wrong_by(Some(fault), LISTS, no_answer), None);
}

/// While nothing shows in a ledger that blocks have led to.
fn assert_found_from_any_start(fault: LedgerFault, (): ()) {
    assert_eq!(fault.found_by(), LedgerFoundBy::AnyStart);
    assert!(differs(&FROM_ANY_START, Some(fault)));
    assert!(!differs(&SCRIPTS, Some(fault)));
    assert_eq!(wrong_by(Some(fault), LISTS, |_| true), None);
}

fn is_answer(wrong: Wrong) -> bool {
    matches!(wrong, Wrong::Answer(..))
}

fn is_sum(wrong: Wrong) -> bool {
    wrong == Wrong::SumOfCharges
}

fn is_total(wrong: Wrong) -> bool {
    matches!(wrong, Wrong::Total(_))
}

macro_rules! found_by {
    ($($name:ident: $fault:ident, $found_by:ident, $how:expr;)*) => {
        const LOOKED_FOR: &[LedgerFault] = &[$(LedgerFault::$fault,)*];

        mod is_found {
            use super::*;

            $(#[test]
            fn $name() {
                $found_by(LedgerFault::$fault, $how);
            })*
        }
    };
}

found_by! {
    a_ledger_that_charges_nothing_for_a_counter_that_wrapped:
        SaturatingDifference, assert_found_by_true_counts, is_sum;
    a_ledger_that_takes_away_for_a_counter_that_wrapped:
        SignedDifference, assert_found_by_true_counts, is_sum;
    a_ledger_that_charges_a_first_reading:
        ChargesFirst, assert_found_by_true_counts, is_sum;
    a_ledger_that_keeps_half_of_a_refused_block:
        KeepsRefused, assert_found_by_true_counts, is_sum;
    a_ledger_that_keeps_the_counters_of_a_refused_block:
        KeepsRefusedCounters, assert_found_by_true_counts, is_sum;
    a_ledger_that_does_not_keep_the_counter_of_a_charge:
        KeepsFirstCounter, assert_found_by_true_counts, is_sum;
    a_ledger_that_takes_many_bytes_for_a_late_reading:
        PassesOverLate, assert_found_by_true_counts, is_sum;
    a_ledger_whose_sum_wraps: SumWraps, assert_found_by_true_counts, is_answer;
    a_ledger_that_charges_a_total_once_for_a_block:
        ChargesBlockOnce, assert_found_by_true_counts, is_total;
    a_ledger_whose_totals_wrap: TotalWraps, assert_found_from_any_start, ();
    a_ledger_that_looks_for_42_before_41:
        OverflowBeforeUnknown, assert_found_by_comparison, ();
    a_ledger_that_looks_for_41_in_all_readings_first:
        UnknownOfAllFirst, assert_found_by_comparison, ();
    a_ledger_that_tells_the_last_fault: TellsLastFault, assert_found_by_comparison, ();
    a_ledger_that_looks_at_the_size_last: SizeLast, assert_found_by_comparison, ();
    a_ledger_that_passes_over_a_cut_reading: PassesOverCut, assert_found_by_comparison, ();
    a_ledger_that_refuses_an_empty_block: RefusesEmpty, assert_found_by_comparison, ();
    a_ledger_with_one_subscriber_more: OneSubscriberMore, assert_found_by_comparison, ();
    a_ledger_with_one_subscriber_less: OneSubscriberLess, assert_found_by_comparison, ();
    a_ledger_that_reads_a_subscriber_in_16_bits:
        SubscriberIn16Bits, assert_found_by_comparison, ();
    a_ledger_that_reads_the_high_byte_first: HighByteFirst, assert_found_by_comparison, ();
    a_ledger_that_is_full_one_byte_early: FullOneEarly, assert_found_by_comparison, ();
}

#[test]
fn every_fault_is_looked_for() {
    let mut looked_for = LOOKED_FOR.to_vec();
    looked_for.sort_by_key(|fault| *fault as usize);
    assert_eq!(looked_for, LedgerFault::ALL);
}

/// The two ledgers are written differently: where they agree, it is the lists that do not
/// find a fault.
#[test]
fn without_a_fault_nothing_is_found() {
    assert_eq!(wrong_by(None, LISTS, |_| true), None);
    assert!(!differs(&SCRIPTS, None));
    assert!(!differs(&FROM_ANY_START, None));
}
