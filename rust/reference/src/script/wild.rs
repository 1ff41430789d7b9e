//! Lines of any kind for the program `calls`: openings good and bad, a card and a host
//! joined by a network that also alters and invents, frames aimed at the host's state,
//! and lines of no form. The reference answers along, to know what to aim at.

use crate::calls::{Program, hex};
use crate::ends::{CardEnd, Sound};
use crate::rng::Rng;
use crate::texts::{Damage, any_text, damaged};
use crate::traffic::{Kind, Traffic};
use crate::wire::{self, FRAME_HEADER};

/// Lines from one pair of openings to the next.
const EPISODE: usize = 600;

/// What most lines of an episode are.
#[derive(Clone, Debug)]
enum Episode {
    /// Calls on both ends.
    Joined,
    /// The same, with no acknowledgement read, so that the slots fill.
    Deaf,
    /// Frames for the host alone.
    Guided(Box<Traffic>),
    /// Calls on ends whose opening may be refused.
    Openings,
}

/// An endless script.
#[derive(Clone, Debug)]
pub struct Wild {
    rng: Rng,
    program: Program<Sound>,
    episode: Episode,
    left: usize,
    limit: usize,
    memory: usize,
    /// Frames that were handed out and acknowledgements that were called for.
    frames: Vec<String>,
    acknowledgements: Vec<String>,
    /// Lines to come before any other.
    due: Vec<String>,
}

impl Wild {
    /// The seed's script.
    pub fn new(seed: u64) -> Wild {
        Wild {
            rng: Rng::new(seed),
            program: Program::new(Sound),
            episode: Episode::Openings,
            left: 60,
            limit: 0,
            memory: 0,
            frames: Vec::new(),
            acknowledgements: Vec::new(),
            due: Vec::new(),
        }
    }

    /// The next line without its newline, and what the reference answers.
    pub fn next_line(&mut self) -> (Vec<u8>, String) {
        if self.left == 0 && self.due.is_empty() {
            self.begin();
        }
        let line = match self.due.pop() {
            Some(line) => line.into_bytes(),
            None => {
                self.left -= 1;
                self.any_line()
            }
        };
        let answer = self.program.line(&line);
        let words: Vec<&str> = answer.split(' ').collect();
        match words[..] {
            ["slot", _, frame] => self.frames.push(frame.to_string()),
            [.., "ack", frame] => self.acknowledgements.push(frame.to_string()),
            _ => {}
        }
        (line, answer)
    }

    /// That many lines, each with its newline.
    pub fn text(&mut self, lines: usize) -> Vec<u8> {
        let mut text = Vec::new();
        for _ in 0..lines {
            text.extend(self.next_line().0);
            text.push(b'\n');
        }
        text
    }

    fn begin(&mut self) {
        self.frames.clear();
        self.acknowledgements.clear();
        self.left = EPISODE;
        self.limit = match self.rng.below(30) {
            0 => 9_000,
            _ => self.rng.pick(&[34, 35, 42, 66, 67, 100, 300]),
        };
        self.episode = match self.rng.below(6) {
            0 => Episode::Openings,
            1 => {
                let traffic = Traffic::new(self.rng.next_u64(), Kind::Guided);
                Episode::Guided(Box::new(traffic))
            }
            2 => Episode::Deaf,
            _ => Episode::Joined,
        };
        if matches!(self.episode, Episode::Deaf) {
            self.left *= 2;
        }
        self.memory = match self.episode {
            Episode::Guided(_) => 4_096,
            _ => self.rng.pick(&[0, 3, 4, 20, 100, 1_000]),
        };
        let (limit, slots, memory) = (self.limit, 64 * self.limit, self.memory);
        self.due = vec![
            format!("host 1 2 {memory}"),
            format!("card 2 1 {limit} {slots} {}", self.rng.below(2)),
        ];
    }

    fn any_line(&mut self) -> Vec<u8> {
        let line = match self.rng.below(40) {
            0 | 1 => "slots".to_string(),
            2 | 3 => "memory".to_string(),
            4 | 5 => "state".to_string(),
            6 => format!("class {}", self.any_number()),
            7 => return self.no_form(),
            8 => self.store(),
            9 => self.restore(),
            10 => format!("marks {}", self.any_marks()),
            _ => match &mut self.episode {
                Episode::Guided(traffic) => {
                    let line = traffic.next_line().text;
                    return [b"receive ", line].concat();
                }
                Episode::Joined => self.joined(32),
                Episode::Deaf => self.joined(26),
                Episode::Openings => self.opening(),
            },
        };
        line.into_bytes()
    }

    /// Into a buffer around the text's own length.
    fn store(&mut self) -> String {
        let length = self.program.host().text().len();
        let length = match self.rng.below(6) {
            0 => 0,
            1 => length - 1,
            2 => length + 1,
            3 => self.rng.below(1_200),
            _ => length,
        };
        format!("store {length}")
    }

    /// From the host's own text, or from one that is damaged or another's, after which the
    /// own one is read again.
    fn restore(&mut self) -> String {
        let own = self.program.host().text();
        if self.rng.chance(1, 3) {
            return format!("restore {}", hex(own.as_bytes()));
        }
        self.due.push(format!("restore {}", hex(own.as_bytes())));
        self.due.push("state".to_string());
        let text = match self.rng.below(3) {
            0 => own,
            _ => any_text(&mut self.rng),
        };
        let damage = self.rng.pick(&Damage::ALL);
        let text = match self.rng.below(4) {
            0 => text.into_bytes(),
            _ => damaged(&mut self.rng, text.as_bytes(), damage),
        };
        format!("restore {}", hex(&text))
    }

    /// A call on either end, of the first `kinds` of 32.
    fn joined(&mut self, kinds: usize) -> String {
        match self.rng.below(kinds) {
            0..4 => self.open(),
            4..11 => self.add(),
            11..16 => "seal".to_string(),
            16..18 => self.show(),
            18..21 => self.choose(),
            21..25 => {
                let frame = self.any_frame();
                format!("receive {frame}")
            }
            25 => {
                let frame = self.any_frame();
                format!("layout {frame}")
            }
            _ => {
                let frame = self.any_acknowledgement();
                format!("read {frame}")
            }
        }
    }

    /// Openings around the edges, and then calls on whatever they left.
    fn opening(&mut self) -> String {
        match self.rng.below(6) {
            0 => {
                let limit = self.rng.pick(&[0, 33, 34, 34, 100, 9_000, 9_001, 70_000]);
                let slots = (64 * limit).min(600_000) + self.rng.pick(&[0, 0, 0, 1]);
                let slots = slots - self.rng.pick(&[0, 0, 0, 1]).min(slots);
                let (own, peer) = (self.any_id(), self.any_id());
                self.limit = limit;
                format!("card {own} {peer} {limit} {slots} 0")
            }
            1 => {
                let (own, peer) = (self.any_id(), self.any_id());
                format!("host {own} {peer} {}", self.rng.below(100))
            }
            2 => format!("read {}", hex(&wire::ack_frame(0, 0, 0, 0, 1))),
            3 => {
                let bare = wire::Message {
                    transaction: 0,
                    completion_address: 0,
                    completion_value: 7,
                    count: 0,
                    data_address: 0,
                    data: &[],
                };
                format!("receive {}", hex(&wire::write_frame(0, 0, 0, &[bare])))
            }
            _ => self.joined(32),
        }
    }

    fn open(&mut self) -> String {
        let count = self.rng.pick(&[0, 1, 1, 2, 3, 5, 65_535]);
        let address = self.any_address();
        format!("open {count} {address} {}", self.rng.next_u32())
    }

    fn add(&mut self) -> String {
        // Mostly one that wants a message, and some that are not there.
        let unfilled: Vec<u32> = self.program.card().card().unfilled().collect();
        let transaction = match self.rng.below(12) {
            0 => self.rng.next_u32(),
            1 | 2 => self.rng.below(40) as u32,
            _ if unfilled.is_empty() => 0,
            _ => self.rng.pick(&unfilled),
        };
        let address = self.any_address();
        let room = self.limit.saturating_sub(34);
        let length = match self.rng.below(80) {
            0..10 => room,
            10..20 => room + 1,
            20..30 => room.saturating_sub(32),
            30..40 => 0,
            40 => self.rng.pick(&[9_000, 65_535, 65_536, 99_000]),
            _ => self.rng.below(room.min(20) + 1),
        };
        format!(
            "add {transaction} {address} {}",
            hex(&self.rng.bytes(length))
        )
    }

    fn show(&mut self) -> String {
        let near = self.rng.below(72) as u16;
        let lowest = self.program.card().card().lowest_unreleased();
        let number = match self.rng.below(4) {
            0 => self.rng.next_u16(),
            1 => lowest,
            _ => lowest.wrapping_add(near).wrapping_sub(4),
        };
        format!("show {number}")
    }

    fn choose(&mut self) -> String {
        let length = self.rng.pick(&[0, 0, 0, 0, 0, 9, 10, 11, 34]);
        format!("choose {}", hex(&self.rng.bytes(length)))
    }

    /// A frame for the host: handed out, altered or made up.
    fn any_frame(&mut self) -> String {
        let Some(frame) = self.frames.last() else {
            let length = self.rng.below(60);
            return hex(&self.rng.bytes(length));
        };
        let frame = match self.rng.below(3) {
            0 => self.frames[self.rng.below(self.frames.len())].clone(),
            _ => frame.clone(),
        };
        if self.rng.chance(3, 4) {
            return frame;
        }
        self.altered(&frame)
    }

    fn altered(&mut self, frame: &str) -> String {
        let mut bytes = crate::replay::bytes_of(frame.as_bytes()).unwrap_or_default();
        match self.rng.below(24) {
            0..2 => bytes.resize(self.rng.pick(&[9_000, 9_001]), 0),
            2..6 => bytes.truncate(self.rng.below(bytes.len() + 1)),
            6..12 => bytes.extend(self.rng.bytes(8)),
            _ => {
                let place = self.rng.below(bytes.len().clamp(1, 34));
                let value = self.rng.pick(&[0, 1, 2, 64, 128, 255]);
                if let Some(byte) = bytes.get_mut(place) {
                    *byte = value;
                }
            }
        }
        hex(&bytes)
    }

    /// A frame for the card: an acknowledgement as it was called for, altered, or a
    /// range of any length; also one that carries messages.
    fn any_acknowledgement(&mut self) -> String {
        let lowest = self.program.card().card().lowest_unreleased();
        match self.rng.below(6) {
            0..3 if !self.acknowledgements.is_empty() => {
                let latest = self.acknowledgements.len() - 1;
                let index = latest - self.rng.below(8).min(latest);
                self.acknowledgements[index].clone()
            }
            3 => {
                let start = lowest
                    .wrapping_add(self.rng.below(6) as u16)
                    .wrapping_sub(2);
                let count = self.rng.pick(&[0, 1, 1, 2, 3, 64, 255]);
                hex(&wire::ack_frame(2, 1, self.rng.next_u16(), start, count))
            }
            4 => {
                let frame = wire::ack_frame(2, 1, 0, lowest, 1);
                self.altered(&hex(&frame))
            }
            _ => {
                let data = self.rng.bytes(FRAME_HEADER);
                let message = wire::Message {
                    transaction: 0,
                    completion_address: 0,
                    completion_value: 0,
                    count: 1,
                    data_address: 0,
                    data: &data,
                };
                let mut frame = wire::write_frame(2, 1, 0, &[message]);
                frame[6..8].copy_from_slice(&lowest.to_le_bytes());
                frame[8] = 1;
                let length = frame.len() - self.rng.below(2);
                hex(&frame[..length])
            }
        }
    }

    fn any_address(&mut self) -> u32 {
        match self.rng.below(10) {
            0 => self.memory as u32,
            1 => self.memory as u32 + 1,
            2 => u32::MAX - self.rng.below(5) as u32,
            _ => self.rng.below(self.memory.max(1)) as u32,
        }
    }

    fn any_id(&mut self) -> u16 {
        self.rng.pick(&[0, 1, 2, 2, 65_535])
    }

    fn any_number(&mut self) -> u32 {
        match self.rng.below(4) {
            0 => self.rng.next_u32(),
            _ => self.rng.below(40) as u32,
        }
    }

    /// Set marks below a place, and above it any, or all but one.
    fn any_marks(&mut self) -> u64 {
        let below = u64::MAX
            .checked_shl(self.rng.below(65) as u32)
            .map_or(u64::MAX, |above| !above);
        match self.rng.below(3) {
            0 => below,
            1 => below | self.rng.next_u64(),
            _ => !(1 << self.rng.below(64)),
        }
    }

    fn no_form(&mut self) -> Vec<u8> {
        let lines: [&[u8]; 29] = [
            b"",
            b" ",
            b"seal ",
            b" seal",
            b"seal 1",
            b"Seal",
            b"seals",
            b"show",
            b"show ",
            b"show -1",
            b"show +1",
            b"show 65536",
            b"show 1 2",
            b"show  1",
            b"open 65536 0 0",
            b"open 1 4294967296 0",
            b"add 0 0",
            b"add 0 0 ",
            b"add 0 0 0",
            b"add 0 0 0g",
            b"card 1 2 34 2176",
            b"card 1 2 34 2176 2",
            b"host 1 2 1048577",
            b"store 1048577",
            b"store -",
            b"restore 0",
            b"restore",
            b"class \xff",
            b"marks 18446744073709551616",
        ];
        self.rng.pick(&lines).to_vec()
    }
}
