//! Blocks that cards send and a ledger takes: each is the data of one transaction, in one
//! message or several, over a network that loses, repeats and reorders. A block is read from
//! memory when its transaction is complete, which is before a later one may write there.

use super::{Audit, Block, Meters, Wrong};
use crate::book::Book;
use crate::demand::{Breach, Care, System};
use crate::ends::Ends;
use crate::host::Host;
use crate::ledger::Ledger;
use crate::list::{Call, Outcome};
use crate::rng::Rng;
use crate::simulator::{Profile, Simulator};
use crate::table::Region;
use crate::table_lists::Met;
use crate::table_lists::several::{Broken, Several, TableCall};
use std::collections::BTreeMap;
use std::ops::Range;

/// In which order blocks are taken.
#[derive(Clone, Copy, Debug, PartialEq, Eq)]
pub enum Order {
    /// In the order in which their transactions were opened; one that is complete before an
    /// earlier one waits.
    OfOpening,
    /// As soon as they are complete. No subscriber is in two blocks on their way.
    Apart,
    /// As soon as they are complete, whatever is in them: readings may come late.
    AnyOrder,
}

/// Why a list fails.
#[derive(Clone, Debug, PartialEq, Eq)]
pub enum Failed {
    /// Demand 3 does not hold of the ends.
    Demand(Breach),
    /// The same at a table.
    Table(Broken),
    /// What is claimed of the ledger does not hold.
    Ledger(Wrong),
}

/// A block on its way.
#[derive(Clone, Debug)]
struct Sent {
    place: Range<usize>,
    block: Block,
    has_arrived: bool,
}

/// A card's side: what it counts, sends and has had delivered.
struct Feeder {
    simulator: Simulator,
    meters: Meters,
    order: Order,
    first_transaction: u32,
    /// The blocks that were not taken, by transaction.
    sent: BTreeMap<usize, Sent>,
}

impl Feeder {
    fn new(rng: &mut Rng, profile: Profile, order: Order, meters: Meters) -> Feeder {
        Feeder {
            first_transaction: profile.start.transaction,
            simulator: Simulator::new(rng.next_u64(), profile),
            meters,
            order,
            sent: BTreeMap::new(),
        }
    }

    /// The simulator's next call, with the block's bytes for those that it made up.
    fn next_call(&mut self, book: &Book) -> Call {
        let mut call = self.simulator.next_call(book);
        if let Call::Add {
            transaction,
            address,
            data,
        } = &mut call
        {
            let transaction = transaction.wrapping_sub(self.first_transaction) as usize;
            let sent = self.sent.get(&transaction);
            let part = sent.and_then(|sent| {
                let start = (*address as usize).checked_sub(sent.place.start)?;
                sent.block.bytes.get(start..start + data.len())
            });
            // What else is added the card refuses, or it is empty.
            if let Some(part) = part {
                data.copy_from_slice(part);
            }
        }
        call
    }

    /// Takes in what a call was answered, and gives the blocks that are to be taken now.
    fn note(
        &mut self,
        call: &Call,
        outcome: &Outcome,
        book: &Book,
        memory: &[u8],
        met: &mut Met,
    ) -> Result<Vec<Block>, Wrong> {
        self.simulator.note(call, outcome, book);
        match outcome {
            Outcome::Opened(_) => self.fill(book.transactions().len() - 1),
            Outcome::Answered(_) => self.arrive(book, memory, met)?,
            _ => {}
        }
        Ok(self.due())
    }

    /// Reads the meters for a transaction that was opened.
    fn fill(&mut self, transaction: usize) {
        let place = self.simulator.block_of(transaction);
        let place = place.expect("every transaction carries a block");
        let (sent, apart) = (&self.sent, self.order == Order::Apart);
        let is_on_way = |subscriber| {
            let mut readings = sent.values().flat_map(|sent| &sent.block.readings);
            apart && readings.any(|reading| reading.subscriber == subscriber)
        };
        let block = self.meters.block(place.len(), is_on_way);
        let sent = Sent {
            place,
            block,
            has_arrived: false,
        };
        self.sent.insert(transaction, sent);
    }

    /// Reads the blocks of those transactions that have become complete.
    fn arrive(&mut self, book: &Book, memory: &[u8], met: &mut Met) -> Result<(), Wrong> {
        let mut earlier_waits = false;
        let waiting = self.sent.iter_mut().filter(|(_, sent)| !sent.has_arrived);
        for (transaction, sent) in waiting {
            let entry = &book.transactions()[*transaction];
            if entry.is_complete() {
                if memory[sent.place.clone()] != sent.block.bytes {
                    return Err(Wrong::Bytes);
                }
                sent.has_arrived = true;
                let messages = entry.terms.messages();
                let empty = sent.block.bytes.is_empty();
                met.count("a block in one message", messages == 1 && !empty);
                met.count("a block in several messages", messages > 1 && !empty);
                met.count("an empty block", empty);
                met.count("a block complete before an earlier one", earlier_waits);
            }
            earlier_waits |= !sent.has_arrived;
        }
        Ok(())
    }

    /// The blocks that are to be taken now, which are no longer on their way.
    fn due(&mut self) -> Vec<Block> {
        let mut due = Vec::new();
        let mut waits = false;
        self.sent.retain(|_, sent| {
            let is_due = sent.has_arrived && (self.order != Order::OfOpening || !waits);
            waits |= !sent.has_arrived;
            if is_due {
                due.push(sent.block.clone());
            }
            !is_due
        });
        due
    }
}

/// What such lists have to meet.
pub const MET: [&str; 6] = [
    "a block in one message",
    "a block in several messages",
    "an empty block",
    "a block complete before an earlier one",
    "a block taken",
    "a block refused",
];

fn profile(rng: &mut Rng) -> Profile {
    Profile {
        limit: rng.pick(&[34, 41, 42, 66, 66, 100, 100, 150, 300, 1_500]),
        memory: rng.pick(&[150, 300, 600, 1_000, 3_000]),
        blocks: true,
        ..Profile::any(rng)
    }
}

/// Has the ledger take blocks. What is claimed of it has to hold after each.
fn take<E: Ends>(
    audit: &mut Audit<E::Ledger>,
    blocks: Result<Vec<Block>, Wrong>,
    met: &mut Met,
) -> Result<(), Failed> {
    for block in blocks.map_err(Failed::Ledger)? {
        let answer = audit.take(&block).map_err(Failed::Ledger)?;
        met.count("a block taken", answer.is_ok());
        met.count("a block refused", answer.is_err());
    }
    Ok(())
}

/// All that was counted up to the last readings that were sent well is charged.
fn all_charged<'a, E: Ends>(
    audit: &Audit<E::Ledger>,
    feeders: impl Iterator<Item = &'a Feeder>,
) -> Result<(), Failed> {
    let mut lasts = BTreeMap::new();
    for feeder in feeders {
        assert!(feeder.sent.is_empty(), "a block was not taken");
        lasts.extend(feeder.meters.lasts());
    }
    match lasts == audit.lasts() {
        true => Ok(()),
        false => Err(Failed::Ledger(Wrong::Delivered)),
    }
}

/// No list takes this many more calls than planned.
fn most(calls: usize) -> usize {
    20 * calls + 20_000
}

/// A card and a host make a list of about so many calls, which goes on until all
/// transactions are finished, and the ledger takes all blocks. Before so many of 100 calls
/// the host starts again from its stored pair, with its memory.
pub fn by_host<E: Ends>(
    ends: &E,
    seed: u64,
    calls: usize,
    order: Order,
    restarts: usize,
) -> Result<Met, Failed> {
    let mut rng = Rng::new(seed);
    let (profile, start) = (profile(&mut rng), Ledger::open());
    let setting = profile.setting(seed);
    let mut system = System::new(ends, &setting, Care::LongList);
    let meters = Meters::new(&mut rng, &start, |_| true);
    let mut audit = Audit::new(ends.open_ledger(&start), &start, &meters);
    let mut feeder = Feeder::new(&mut rng, profile, order, meters);
    let mut met = Met::default();
    let mut made = 0;
    while made < calls || !system.book().is_settled() {
        if made == calls {
            feeder.simulator.drain();
        }
        assert!(made < most(calls), "seed {seed}: not settled");
        made += 1;
        if rng.chance(restarts, 100) {
            let (host, None) = Host::restored(system.host().text().as_bytes()) else {
                panic!("seed {seed}: the stored pair does not read back");
            };
            let memory = system.memory().to_vec();
            system.restart(host, &memory).map_err(Failed::Demand)?;
        }
        let call = feeder.next_call(system.book());
        let outcome = system.step(&call).map_err(Failed::Demand)?;
        let blocks = feeder.note(&call, &outcome, system.book(), system.memory(), &mut met);
        take::<E>(&mut audit, blocks, &mut met)?;
    }
    system.finish().map_err(Failed::Demand)?;
    all_charged::<E>(&audit, [&feeder].into_iter())?;
    Ok(met)
}

/// The same for so many cards at one table, each with subscribers of its own, whose blocks
/// one ledger takes.
pub fn by_table<E: Ends>(ends: E, seed: u64, calls: usize, cards: u16) -> Result<Met, Failed> {
    let mut rng = Rng::new(seed);
    let (own, start) = (rng.next_u16().max(1), Ledger::open());
    let meters = Meters::new(&mut rng, &start, |_| true);
    let mut audit = Audit::<E::Ledger>::new(ends.open_ledger(&start), &start, &meters);
    let profiles = (1..=cards).map(|source| Profile {
        card: source,
        host: own,
        ..profile(&mut rng)
    });
    let profiles: Vec<Profile> = profiles.collect();
    let length = profiles.iter().map(|profile| profile.memory).sum();
    let mut several = Several::new(ends, own, &rng.bytes(length));
    let mut feeders = BTreeMap::new();
    let mut first = 0;
    for profile in profiles {
        let (source, limit, start) = (profile.card, profile.limit, profile.start);
        let region = Region {
            first,
            length: profile.memory as u64,
        };
        first += region.length;
        let register = TableCall::Register {
            source,
            region,
            limit,
            start,
        };
        several.step(&register).map_err(Failed::Table)?;
        let is_here = |who| who % u32::from(cards) == u32::from(source) - 1;
        let meters = Meters::new(&mut rng, &Ledger::open(), is_here);
        let order = rng.pick(&[Order::OfOpening, Order::Apart]);
        let feeder = Feeder::new(&mut rng, profile, order, meters);
        feeders.insert(source, feeder);
    }
    let mut met = Met::default();
    let mut made = 0;
    loop {
        let unsettled = feeders.keys().copied();
        let unsettled =
            unsettled.filter(|source| made < calls || !several.book(*source).is_settled());
        let unsettled: Vec<u16> = unsettled.collect();
        if unsettled.is_empty() {
            break;
        }
        if made == calls {
            let feeders = feeders.values_mut();
            feeders.for_each(|feeder| feeder.simulator.drain());
        }
        assert!(made < most(calls), "seed {seed}: not settled");
        made += 1;
        let source = rng.pick(&unsettled);
        let feeder = feeders.get_mut(&source).expect("every card has one");
        let call = feeder.next_call(several.book(source));
        let of = TableCall::Of {
            source,
            call: call.clone(),
            lent: length,
        };
        let outcome = several.step(&of).map_err(Failed::Table)?;
        let outcome = outcome.expect("a card's call is answered");
        let (book, memory) = (several.book(source), several.bytes_of(source));
        let blocks = feeder.note(&call, &outcome, book, &memory, &mut met);
        take::<E>(&mut audit, blocks, &mut met)?;
    }
    several.finish().map_err(Failed::Table)?;
    all_charged::<E>(&audit, feeders.values())?;
    Ok(met)
}
