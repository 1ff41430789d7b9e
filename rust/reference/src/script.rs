//! Scripts for the program `calls`: the lists of demand 3 spelled as its lines, lines of
//! any kind, also such as no list of that demand has, lines about a table and lines about a
//! ledger.

use crate::calls::hex;
use crate::card::SLOTS;
use crate::demand::{Care, Setting, System};
use crate::ends::{Sound, Start};
use crate::list::Call;

mod ledgers;
mod tables;
mod wild;

pub use ledgers::Ledgers;
pub use tables::Tables;
pub use wild::Wild;

/// Spells a list, with questions for the digests and the host's state after every
/// `between` calls and at the end. A script's numbers start at 0 and its memory with
/// zeros, whatever the setting says of the latter.
pub fn of_list(setting: &Setting, calls: &[Call], between: usize) -> String {
    assert_eq!(
        setting.start,
        Start::default(),
        "a script cannot say otherwise"
    );
    let Setting {
        card, host, limit, ..
    } = *setting;
    let (slots, memory) = (SLOTS * limit, setting.memory.len());
    let mut script = format!("card {card} {host} {limit} {slots} 0\nhost {host} {card} {memory}\n");
    let mut system = System::new(&Sound, setting, Care::LongList);
    for (index, call) in calls.iter().enumerate() {
        script += &line_of(&system, call);
        script.push('\n');
        system.step(call).expect("the reference keeps demand 3");
        if (index + 1) % between == 0 || index + 1 == calls.len() {
            script += "slots\nmemory\nstate\n";
        }
    }
    script
}

/// A call as a line; a copy is spelled out.
fn line_of(system: &System<Sound>, call: &Call) -> String {
    match call {
        Call::Open {
            count,
            address,
            value,
        } => format!("open {count} {address} {value}"),
        Call::Add {
            transaction,
            address,
            data,
        } => format!("add {transaction} {address} {}", hex(data)),
        Call::Seal => "seal".to_string(),
        Call::Read(_) => format!("read {}", hex(&system.brought(call))),
        Call::Show(number) => format!("show {number}"),
        Call::Choose(lent) => format!("choose {}", hex(lent)),
        Call::Receive(_) => format!("receive {}", hex(&system.brought(call))),
    }
}
