//! The program that drives a card, a host, a table and a ledger by lines, one call each, and
//! writes every answer, for comparison with the proved one. It works on any ends and any
//! stream, so that tests and the program beside it run the same code.

use crate::demand::UNWRITTEN;
use crate::ends::{CardEnd, Ends, HostEnd, LedgerEnd, Start, TableEnd};
use crate::host::{Answer, Host};
use crate::ledger::Ledger;
use crate::marks;
use crate::refusal::{self, Class};
use crate::table::{Region, Registered, source_of};
use crate::wire::{self, FRAME_HEADER};
use line::Line;
use std::fmt::Write as _;
use std::io::{self, BufRead, Write};

mod line;

pub use line::{LONGEST_LINE, MOST_MEMORY, MOST_SLOTS};

/// What a buffer to store in is filled with.
const UNSTORED: u8 = b'.';

/// The program between two lines.
#[derive(Clone, Debug)]
pub struct Program<E: Ends> {
    ends: E,
    card: E::Card,
    slots: Vec<u8>,
    host: E::Host,
    table: E::Table,
    /// The host's and the table's.
    memory: Vec<u8>,
    ledger: E::Ledger,
}

impl<E: Ends> Program<E> {
    /// Before the first line: both ends and the table as a refused opening leaves them,
    /// with buffers of no bytes, and the ledger empty.
    pub fn new(ends: E) -> Program<E> {
        Program::starting_with(ends, &Ledger::open())
    }

    /// The same with another ledger, since no line can say that it is to start so.
    pub fn starting_with(ends: E, ledger: &Ledger) -> Program<E> {
        let start = Start::default();
        Program {
            card: ends.open_card(0, 0, 0, &[], start).0,
            slots: Vec::new(),
            host: ends.open_host(0, 0, start).0,
            table: ends.open_table(0).0,
            memory: Vec::new(),
            ledger: ends.open_ledger(ledger),
            ends,
        }
    }

    /// Answers one line, given without its newline.
    pub fn line(&mut self, line: &[u8]) -> String {
        match Line::read(line) {
            Some(line) => self.call(line),
            None => "?".to_string(),
        }
    }

    fn call(&mut self, line: Line) -> String {
        match line {
            Line::Card {
                own,
                peer,
                limit,
                slots,
            } => {
                self.slots = vec![UNWRITTEN; slots];
                let start = Start::default();
                let (card, refusal) = self.ends.open_card(own, peer, limit, &self.slots, start);
                self.card = card;
                done(refusal.map_or(Ok(()), Err))
            }
            Line::Host { own, peer, memory } => {
                self.memory = vec![0; memory];
                let (host, refusal) = self.ends.open_host(own, peer, Start::default());
                self.host = host;
                done(refusal.map_or(Ok(()), Err))
            }
            Line::Open {
                count,
                address,
                value,
            } => numbered("t", self.card.open_transaction(count, address, value)),
            Line::Add {
                transaction,
                address,
                data,
            } => done(self.card.add(transaction, address, &data, &mut self.slots)),
            Line::Seal => numbered("f", self.card.seal(&self.slots)),
            Line::Read(frame) => done(self.card.read(&frame)),
            Line::Show(number) => {
                let card = self.card.card();
                let part = card.show(number, &self.slots);
                self.handed_out(part, card.show_refusal(number, &self.slots))
            }
            Line::Choose(lent) => {
                let card = self.card.card();
                let part = card.choose(&lent, &self.slots);
                self.handed_out(part, card.choose_refusal(&lent, &self.slots))
            }
            Line::Receive(frame) => {
                let answer = self.host.receive(&frame, &mut self.memory);
                received(answer, self.host.acknowledgement(answer, 0))
            }
            Line::Layout(frame) => layout(&frame),
            Line::Class(number) => class(number).to_string(),
            Line::Marks(marks) => marks::count(marks).to_string(),
            Line::Slots => digest(&self.slots),
            Line::Memory => digest(&self.memory),
            Line::State => state(self.host.host()),
            Line::Store(length) => {
                let mut text = vec![UNSTORED; length];
                let stored = self.host.host().store(&mut text);
                format!("{} {}", numbered("n", stored), hex(&text))
            }
            Line::Restore(text) => {
                let (host, refusal) = Host::restored(&text);
                self.host.put(host);
                done(refusal.map_or(Ok(()), Err))
            }
            Line::Table { own, memory } => {
                self.memory = vec![0; memory];
                let (table, refusal) = self.ends.open_table(own);
                self.table = table;
                done(refusal.map_or(Ok(()), Err))
            }
            Line::Register {
                source,
                region,
                memory,
            } => done(self.table.register(source, region, memory)),
            Line::Remove(source) => done(self.table.remove(source)),
            Line::Deliver { memory, frame } => self.deliver(memory, &frame),
            Line::Take(source) => {
                let taken = self.table.take(source);
                done(taken.map(|pair| self.host.put(pair)))
            }
            Line::Adopt { region, memory } => {
                done(self.table.adopt(self.host.host(), region, memory))
            }
            Line::TableState => table_state(&self.table),
            Line::Ledger => {
                self.ledger = self.ends.open_ledger(&Ledger::open());
                done(Ok(()))
            }
            Line::Block(block) => done(self.ledger.take(&block)),
            Line::Total(subscriber) => {
                let total = self.ledger.total(subscriber).unwrap_or(0);
                format!("{total} {}", self.ledger.sum())
            }
        }
    }

    /// The table gets the first bytes of the memory, all of them if it has no more.
    fn deliver(&mut self, memory: u64, frame: &[u8]) -> String {
        let lent = memory.min(self.memory.len() as u64) as usize;
        let answer = self.table.receive(frame, &mut self.memory[..lent]);
        let source = source_of(frame).unwrap_or(0);
        received(answer, self.table.acknowledgement(answer, source, 0))
    }

    /// A part is told with the place where it starts in the slot buffer, if it does.
    fn handed_out(&self, part: &[u8], refusal: Option<u8>) -> String {
        assert_eq!(
            part.is_empty(),
            refusal.is_some(),
            "a part says if it is refused"
        );
        if let Some(number) = refusal {
            return refused(number);
        }
        let (slots, start) = (self.slots.as_ptr_range(), part.as_ptr());
        if slots.contains(&start) {
            let offset = start.addr() - slots.start.addr();
            format!("slot {offset} {}", hex(part))
        } else {
            format!("lent {}", hex(part))
        }
    }

    /// The card.
    pub fn card(&self) -> &E::Card {
        &self.card
    }

    /// The host.
    pub fn host(&self) -> &E::Host {
        &self.host
    }

    /// The table.
    pub fn table(&self) -> &E::Table {
        &self.table
    }

    /// The ledger.
    pub fn ledger(&self) -> &E::Ledger {
        &self.ledger
    }

    /// The memory of both.
    pub fn memory(&self) -> &[u8] {
        &self.memory
    }
}

/// The answer to a frame, with what it calls for.
fn received(answer: Answer, acknowledgement: Option<[u8; FRAME_HEADER]>) -> String {
    let mut text = answer.to_string();
    match answer {
        Answer::Accepted { run, .. } | Answer::Again { run, .. } => {
            append(&mut text, format_args!(" run {run}"));
        }
        Answer::Refused { place, .. } => append(&mut text, format_args!(" place {place}")),
        Answer::NoMessages => {}
    }
    if let Some(frame) = acknowledgement {
        append(&mut text, format_args!(" ack {}", hex(&frame)));
    }
    text
}

fn done(result: Result<(), u8>) -> String {
    result.map_or_else(refused, |()| "ok".to_string())
}

fn numbered(word: &str, result: Result<impl std::fmt::Display, u8>) -> String {
    result.map_or_else(refused, |number| format!("{word} {number}"))
}

fn refused(number: u8) -> String {
    format!("R {number}")
}

fn append(text: &mut String, arguments: std::fmt::Arguments) {
    text.write_fmt(arguments).expect("a string takes any text");
}

fn layout(frame: &[u8]) -> String {
    match wire::layout(frame) {
        Err(number) => refused(number),
        Ok(layout) => {
            let header = layout.header;
            format!(
                "L {} {} {} {} {} {} {} {}",
                header.destination,
                header.source,
                header.number,
                header.ack_start,
                header.ack_count,
                header.flags,
                layout.messages,
                layout.data_bytes
            )
        }
    }
}

fn class(number: u32) -> &'static str {
    match refusal::class(number) {
        Class::None => "none",
        Class::Wire => "wire",
        Class::Message => "message",
        Class::Caller => "caller",
        Class::Card => "card",
    }
}

/// The pair: marks have bit i set for the number i past the next or lowest one.
fn state(host: &Host) -> String {
    let ((own, peer), next, lowest) = (host.ids(), host.next(), host.lowest());
    let (marks, closed) = (host.marks(), host.closed_marks());
    let mut text = format!(
        "own {own} peer {peer} next {next} marks {marks:016x} lowest {lowest} closed {closed:08x}"
    );
    for (number, entry) in host.open_in_order() {
        let terms = entry.terms;
        let (address, value) = (terms.completion_address, terms.completion_value);
        let (count, received) = (terms.count, entry.received);
        append(
            &mut text,
            format_args!(" [{number} {address} {value} {count} {received} 0]"),
        );
    }
    text
}

/// The table's cards with their regions, by first byte.
fn table_state(table: &impl TableEnd) -> String {
    let mut text = format!("own {}", table.own());
    for Registered { source, region } in table.cards() {
        let Region { first, length } = region;
        append(&mut text, format_args!(" [{source} {first} {length}]"));
    }
    text
}

/// FNV-1a of 64 bits, in 16 digits.
pub fn digest(bytes: &[u8]) -> String {
    let mut hash = 0xcbf2_9ce4_8422_2325_u64;
    for byte in bytes {
        hash = (hash ^ u64::from(*byte)).wrapping_mul(0x0000_0100_0000_01b3);
    }
    format!("{hash:016x}")
}

/// Bytes as a line spells them.
pub fn hex(bytes: &[u8]) -> String {
    if bytes.is_empty() {
        return "-".to_string();
    }
    let mut text = String::with_capacity(2 * bytes.len());
    for byte in bytes {
        append(&mut text, format_args!("{byte:02x}"));
    }
    text
}

/// The whole program on these ends.
pub fn run<E: Ends>(ends: E, mut input: impl BufRead, mut output: impl Write) -> io::Result<()> {
    let mut program = Program::new(ends);
    let mut line = Vec::new();
    loop {
        line.clear();
        // No byte at all is the end, so a last line without a newline is not empty.
        if input.read_until(b'\n', &mut line)? == 0 {
            return output.flush();
        }
        line.pop_if(|last| *last == b'\n');
        writeln!(output, "{}", program.line(&line))?;
    }
}

/// What the program writes for this input.
pub fn output<E: Ends>(ends: E, input: &[u8]) -> String {
    let mut output = Vec::new();
    run(ends, input, &mut output).expect("memory is read and written without errors");
    String::from_utf8(output).expect("the program writes plain letters and digits")
}

#[cfg(test)]
mod tests;
