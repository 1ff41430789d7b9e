//! A list in which a transaction is finished early, stays in the card's window behind
//! one that is not, and is still there when its last frame's number is in use again.
//! The network does no harm; the point is what the card then opens.

use crate::demand::Setting;
use crate::ends::Start;
use crate::list::Call;

/// The list's calls so far, with how much was handed out and acknowledged.
#[derive(Default)]
struct List {
    calls: Vec<Call>,
    frames: usize,
}

impl List {
    fn open(&mut self, count: u16, place: u32) {
        self.calls.push(Call::Open {
            count,
            address: 4 * place,
            value: 0x0101_0101 * (place + 1),
        });
    }

    /// A frame of one message, up to its arrival at the host.
    fn send(&mut self, transaction: u32) {
        self.calls.extend([
            Call::Add {
                transaction,
                address: 0,
                data: Vec::new(),
            },
            Call::Seal,
            Call::Show(self.frames as u16),
            Call::Receive(self.frames),
        ]);
        self.frames += 1;
    }

    fn send_and_read(&mut self, transaction: u32) {
        self.send(transaction);
        self.calls.push(Call::Read(self.frames - 1));
    }
}

/// The list and what it starts from.
pub fn come_round() -> (Setting, Vec<Call>) {
    let mut list = List::default();
    // 0 is held back, 1 is soon finished, and 2 to 30 have a message for each number
    // until 0 and 1 come again.
    list.open(2, 0);
    list.open(1, 1);
    for transaction in 2..30 {
        list.open(2_260, transaction);
    }
    list.open(2_254, 30);
    list.open(10, 31);
    list.send_and_read(0);
    list.send_and_read(1);
    for transaction in 2..30 {
        (0..2_260).for_each(|_| list.send_and_read(transaction));
    }
    (0..2_254).for_each(|_| list.send_and_read(30));
    assert_eq!(list.frames, 65_536, "the next frame has the number 0 again");
    list.send(0);
    list.send(31);
    // 0 is finished now and with it all up to 30, though the number of the frame that
    // holds all of 1 is that of a frame not released.
    list.calls.push(Call::Read(65_536));
    for transaction in 32..64 {
        list.open(0, transaction - 32);
    }
    let setting = Setting {
        card: 2,
        host: 1,
        limit: 34,
        memory: vec![0; 128],
        start: Start::default(),
    };
    (setting, list.calls)
}
