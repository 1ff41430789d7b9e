//! Seeded frames for comparing readers of a layout: good ones of every shape, cut
//! and damaged ones, and noise. They come in rounds, each of which has every family
//! of frames, so that a run of any length meets every kind of outcome.
//!
//! Where a family knows the outcome from how it made the frame, it says so. That
//! checks the independent reader too, and not only that two readers agree.

use reference::rng::Rng;
use reference::settings::{count_from_env, number_from_env};
use reference::wire::{
    FRAME_HEADER, HAS_MESSAGES, LONGEST_FRAME, MESSAGE_HEADER, Message, write_frame,
};
use std::fmt::Write;
use std::ops::ControlFlow;

/// Messages of no bytes that fit in the longest frame.
pub const MOST_MESSAGES: usize = 374;

const DEFAULT_SEED: u64 = 1;
const DEFAULT_INPUTS: u64 = 1_200_000;

// Offsets in a frame header and in a message header.
const ACK_START: usize = 6;
const ACK_COUNT: usize = 8;
const FLAGS: usize = 9;
const UNUSED_2: usize = 14;
const DATA_LENGTH: usize = 20;
const UNUSED_1: usize = 22;
const TRAILING: usize = 23;

/// Which inputs a run gets.
#[derive(Clone, Copy)]
pub struct Settings {
    pub seed: u64,
    /// At least this many; the round they end in is finished.
    pub inputs: u64,
}

impl Settings {
    /// `LW_SEED` and `LW_INPUTS`, or the defaults for what is not set.
    pub fn from_env() -> Settings {
        Settings {
            seed: number_from_env("LW_SEED", DEFAULT_SEED),
            inputs: count_from_env("LW_INPUTS", DEFAULT_INPUTS),
        }
    }
}

/// What a family knows of its frame: messages and data bytes, or the refusal.
pub type Known = Result<(usize, usize), u8>;

/// One frame to be read.
pub struct Input<'a> {
    pub seed: u64,
    /// Counts from 0 over the whole run.
    pub index: u64,
    pub family: &'static str,
    pub frame: &'a [u8],
    pub known: Option<Known>,
}

impl Input<'_> {
    /// All that is needed to look at this input again.
    pub fn describe(&self) -> String {
        let mut hex = String::with_capacity(2 * self.frame.len());
        for byte in self.frame {
            write!(hex, "{byte:02x}").expect("a string takes any text");
        }
        format!(
            "seed {}, input {}, family '{}', {} bytes: {hex}",
            self.seed,
            self.index,
            self.family,
            self.frame.len()
        )
    }
}

/// Hands inputs to `visit` until there were enough of them and the round is over,
/// or until `visit` breaks off. Answers the number of whole rounds.
pub fn run(settings: Settings, visit: impl FnMut(&Input) -> ControlFlow<()>) -> u64 {
    let mut generator = Generator {
        settings,
        rng: Rng::new(settings.seed),
        index: 0,
        visit,
    };
    let mut rounds = 0;
    while rounds == 0 || generator.index < settings.inputs {
        if generator.round().is_break() {
            break;
        }
        rounds += 1;
    }
    rounds
}

/// A good frame, with what was put into it.
struct Good {
    bytes: Vec<u8>,
    /// Where the message headers start.
    headers: Vec<usize>,
    /// The data lengths.
    lengths: Vec<usize>,
}

impl Good {
    fn known(&self) -> Known {
        self.known_of_first(self.lengths.len())
    }

    /// The outcome if the frame ended with its first `messages` messages.
    fn known_of_first(&self, messages: usize) -> Known {
        Ok((messages, self.lengths[..messages].iter().sum()))
    }

    /// The outcome for the first `length` bytes. No byte of a good frame can be
    /// spared, since nothing stands behind its last message.
    fn known_of_cut(&self, length: usize) -> Known {
        if length < FRAME_HEADER {
            Err(1)
        } else if length < self.bytes.len() {
            Err(5)
        } else {
            self.known()
        }
    }

    /// The first byte behind a message's data.
    fn data_end(&self, message: usize) -> usize {
        self.headers[message] + MESSAGE_HEADER + self.lengths[message]
    }
}

struct Generator<V> {
    settings: Settings,
    rng: Rng,
    index: u64,
    visit: V,
}

impl<V: FnMut(&Input) -> ControlFlow<()>> Generator<V> {
    fn round(&mut self) -> ControlFlow<()> {
        self.cut_everywhere()?;
        self.every_number_of_messages()?;
        self.longest()?;
        self.flipped_bits()?;
        self.noise()?;
        self.plausible_noise()?;
        self.trailing_bytes()?;
        self.unused_and_gaps()?;
        self.junk_behind()?;
        self.flag_bytes()?;
        self.clear_flag()?;
        self.frame_lengths()?;
        self.data_lengths()
    }

    fn give(
        &mut self,
        family: &'static str,
        frame: &[u8],
        known: Option<Known>,
    ) -> ControlFlow<()> {
        let input = Input {
            seed: self.settings.seed,
            index: self.index,
            family,
            frame,
            known,
        };
        self.index += 1;
        (self.visit)(&input)
    }

    /// Small frames, each at every length from 0 on. A shorter one is a part of the
    /// whole one, so a reader that looks past its end finds what tempts it.
    fn cut_everywhere(&mut self) -> ControlFlow<()> {
        for messages in 0..24 {
            let good = self.small(messages % 8);
            for length in 0..=good.bytes.len() {
                let known = good.known_of_cut(length);
                self.give("cut everywhere", &good.bytes[..length], Some(known))?;
            }
        }
        ControlFlow::Continue(())
    }

    /// Frames of 0 to 374 messages, as they are and cut near the edges of a message.
    fn every_number_of_messages(&mut self) -> ControlFlow<()> {
        let family = "every number of messages";
        for messages in 0..=MOST_MESSAGES {
            let lengths = self.lengths_of(messages);
            let good = self.good(&lengths);
            assert!(good.bytes.len() <= LONGEST_FRAME);
            self.give(family, &good.bytes, Some(good.known()))?;
            if messages == 0 {
                continue;
            }
            let message = self.rng.below(messages);
            let header = good.headers[message];
            let data_end = good.data_end(message);
            let cuts = [
                self.rng.below(good.bytes.len()),
                header + self.rng.below(3) - 1,
                header + MESSAGE_HEADER + self.rng.below(3) - 1,
                data_end + self.rng.below(3) - 1,
            ];
            for cut in cuts {
                let cut = cut.min(good.bytes.len());
                let known = good.known_of_cut(cut);
                self.give(family, &good.bytes[..cut], Some(known))?;
            }
        }
        ControlFlow::Continue(())
    }

    /// Frames of exactly 9,000 bytes, from one message to as many as come out, and
    /// one byte longer and shorter.
    fn longest(&mut self) -> ControlFlow<()> {
        let family = "longest";
        for largest in [8_966, 8_966, 4_000, 1_000, 300, 60, 24, 8, 1, 0] {
            let lengths = self.lengths_to_fill(LONGEST_FRAME, largest);
            let mut good = self.good(&lengths);
            assert_eq!(good.bytes.len(), LONGEST_FRAME);
            self.give(family, &good.bytes, Some(good.known()))?;
            let short = LONGEST_FRAME - 1;
            self.give(family, &good.bytes[..short], Some(Err(5)))?;
            for _ in 0..8 {
                let cut = self.rng.below(LONGEST_FRAME);
                let known = good.known_of_cut(cut);
                self.give(family, &good.bytes[..cut], Some(known))?;
            }
            // Too long comes before all that may be wrong with flags and messages.
            let last = self.rng.next_u8();
            good.bytes.push(last);
            self.give(family, &good.bytes, Some(Err(2)))?;
            good.bytes[FLAGS] = self.rng.next_u8();
            self.give(family, &good.bytes, Some(Err(2)))?;
        }
        ControlFlow::Continue(())
    }

    /// Good frames with one to many bits flipped, often in the bytes that steer the
    /// reader: flags, data lengths and trailing bytes.
    fn flipped_bits(&mut self) -> ControlFlow<()> {
        for turn in 0..120 {
            let good = if turn % 20 == 0 {
                self.large()
            } else {
                let messages = self.rng.between(1, 7);
                self.small(messages)
            };
            for _ in 0..25 {
                let mut frame = good.bytes.clone();
                let most = self.rng.pick(&[1, 1, 2, 3, 8, 64]);
                for _ in 0..self.rng.between(1, most) {
                    let at = if self.rng.chance(1, 2) {
                        self.rng.below(frame.len())
                    } else {
                        let header = self.rng.pick(&good.headers);
                        self.rng.pick(&[
                            FLAGS,
                            header + DATA_LENGTH,
                            header + DATA_LENGTH + 1,
                            header + TRAILING,
                        ])
                    };
                    frame[at] ^= 1 << self.rng.below(8);
                }
                self.give("flipped bits", &frame, None)?;
            }
        }
        ControlFlow::Continue(())
    }

    /// Random bytes of every length; as most flags would be refused, some are made
    /// permitted ones.
    fn noise(&mut self) -> ControlFlow<()> {
        for _ in 0..2_500 {
            let most = self.rng.pick(&[12, 60, 60, 300, LONGEST_FRAME + 10]);
            let length = self.rng.below(most + 1);
            let mut frame = self.rng.bytes(length);
            if let Some(flags) = frame.get_mut(FLAGS) {
                *flags = self.rng.pick(&[0, HAS_MESSAGES, HAS_MESSAGES, *flags]);
            }
            self.give("noise", &frame, None)?;
        }
        ControlFlow::Continue(())
    }

    /// Random bytes in which only the fields that steer the reader are sensible, so
    /// that it goes through many messages of which nothing else is.
    fn plausible_noise(&mut self) -> ControlFlow<()> {
        for _ in 0..1_000 {
            let length = self.rng.between(34, 600);
            let mut frame = self.rng.bytes(length);
            frame[FLAGS] = HAS_MESSAGES;
            let mut header = FRAME_HEADER;
            while header + MESSAGE_HEADER <= length {
                let data = self.rng.below(40);
                put_u16(&mut frame, header + DATA_LENGTH, data as u16);
                if self.rng.chance(7, 8) {
                    frame[header + TRAILING] = self.rng.pick(&[1, 1, 2, 128, 255]);
                }
                header = first_header_from(header + MESSAGE_HEADER + data);
            }
            self.give("plausible noise", &frame, None)?;
        }
        ControlFlow::Continue(())
    }

    /// Every value of the trailing byte of every message.
    fn trailing_bytes(&mut self) -> ControlFlow<()> {
        let family = "trailing bytes";
        for messages in 1..=6 {
            let good = self.small(messages);
            let mut frame = good.bytes.clone();
            for message in 0..messages {
                let at = good.headers[message] + TRAILING;
                let written = frame[at];
                let is_last = message + 1 == messages;
                for trailing in 0..=255 {
                    frame[at] = trailing;
                    let known = match (trailing, is_last) {
                        (0, _) => good.known_of_first(message + 1),
                        (_, false) => good.known(),
                        (_, true) => Err(5),
                    };
                    self.give(family, &frame, Some(known))?;
                }
                frame[at] = written;
            }
        }
        ControlFlow::Continue(())
    }

    /// Junk in everything that is written 0 and ignored.
    fn unused_and_gaps(&mut self) -> ControlFlow<()> {
        for turn in 0..300 {
            let good = if turn % 30 == 0 {
                self.large()
            } else {
                let messages = self.rng.between(1, 7);
                self.small(messages)
            };
            let mut frame = good.bytes.clone();
            for (message, &header) in good.headers.iter().enumerate() {
                self.rng.fill(&mut frame[header + UNUSED_2..][..2]);
                frame[header + UNUSED_1] = self.rng.next_u8();
                if let Some(&next) = good.headers.get(message + 1) {
                    self.rng.fill(&mut frame[good.data_end(message)..next]);
                }
            }
            self.give("unused and gaps", &frame, Some(good.known()))?;
        }
        ControlFlow::Continue(())
    }

    /// Junk behind the last message, at times up to the longest frame and past it;
    /// then the same with the last message saying that another follows.
    fn junk_behind(&mut self) -> ControlFlow<()> {
        let family = "junk behind";
        for _ in 0..400 {
            let messages = self.rng.between(1, 7);
            let good = self.small(messages);
            let length = match self.rng.below(40) {
                0 => LONGEST_FRAME - good.bytes.len(),
                1 => LONGEST_FRAME - good.bytes.len() + 1,
                _ => self.rng.between(1, 80),
            };
            let mut frame = good.bytes.clone();
            frame.extend(self.rng.bytes(length));
            let too_long = frame.len() > LONGEST_FRAME;
            let known = if too_long { Err(2) } else { good.known() };
            self.give(family, &frame, Some(known))?;

            frame[good.headers[messages - 1] + TRAILING] = 1;
            // Zeros make a message of no bytes, so that the junk is often readable.
            if self.rng.chance(1, 2) {
                frame[good.bytes.len()..].fill(0);
            }
            self.give(family, &frame, too_long.then_some(Err(2)))?;
        }
        ControlFlow::Continue(())
    }

    /// Every value of the flags.
    fn flag_bytes(&mut self) -> ControlFlow<()> {
        for messages in 0..5 {
            let good = self.small(messages);
            let mut frame = good.bytes.clone();
            for flags in 0..=255 {
                frame[FLAGS] = flags;
                let known = match flags {
                    0 => Ok((0, 0)),
                    // Set, and there is no room for a message.
                    1 if messages == 0 => Err(5),
                    1 => good.known(),
                    _ => Err(4),
                };
                self.give("flag bytes", &frame, Some(known))?;
            }
        }
        ControlFlow::Continue(())
    }

    /// A clear flag with messages, parts of messages or junk behind the header.
    fn clear_flag(&mut self) -> ControlFlow<()> {
        let family = "clear flag";
        for _ in 0..200 {
            let messages = self.rng.between(1, 7);
            let mut frame = self.small(messages).bytes;
            frame[FLAGS] = 0;
            let cut = self.rng.between(FRAME_HEADER, frame.len());
            self.give(family, &frame[..cut], Some(Ok((0, 0))))?;

            let most = self.rng.pick(&[40, 400, LONGEST_FRAME]);
            let length = self.rng.between(FRAME_HEADER, most);
            let mut frame = self.rng.bytes(length);
            frame[FLAGS] = 0;
            self.give(family, &frame, Some(Ok((0, 0))))?;
        }
        ControlFlow::Continue(())
    }

    /// Frames of the lengths at which something changes.
    fn frame_lengths(&mut self) -> ControlFlow<()> {
        let lengths = [
            0, 1, 8, 9, 10, 11, 12, 33, 34, 35, 41, 42, 43, 66, 8_985, 8_986, 8_999, 9_000, 9_001,
            9_002, 9_010, 9_256, 65_535, 65_536, 65_546, 65_574,
        ];
        for length in lengths {
            // All zeros but for the flags: a message of no bytes where one fits.
            let mut zeros = vec![0; length];
            for flags in 0..3 {
                if let Some(byte) = zeros.get_mut(FLAGS) {
                    *byte = flags;
                }
                let known = match (length, flags) {
                    (..10, _) => Err(1),
                    (9_001.., _) => Err(2),
                    (_, 0) => Ok((0, 0)),
                    (_, 2) => Err(4),
                    (..34, _) => Err(5),
                    _ => Ok((1, 0)),
                };
                self.give("frame lengths", &zeros, Some(known))?;
            }
            for _ in 0..4 {
                let mut frame = self.rng.bytes(length);
                if let Some(byte) = frame.get_mut(FLAGS) {
                    *byte = self.rng.pick(&[0, 1, 1, 3]);
                }
                self.give("frame lengths", &frame, None)?;
            }
        }
        ControlFlow::Continue(())
    }

    /// Data lengths that end at the frame's end, one byte to either side of it, and
    /// where a sum or a field might be too narrow.
    fn data_lengths(&mut self) -> ControlFlow<()> {
        let family = "data lengths";
        for turn in 0..120 {
            let good = if turn % 10 == 0 {
                self.large()
            } else {
                let messages = self.rng.between(1, 7);
                self.small(messages)
            };
            let message = self.rng.below(good.headers.len());
            let header = good.headers[message];
            let left = good.bytes.len() - header - MESSAGE_HEADER;
            let own = good.lengths[message];
            let wanted = [
                0,
                own.saturating_sub(1),
                own + 1,
                own + 8,
                own + 256,
                left.saturating_sub(1),
                left,
                left + 1,
                255,
                256,
                9_000,
                32_767,
                32_768,
                // Sums of these with an offset pass 65,535.
                65_535 - header,
                65_536 - header - MESSAGE_HEADER,
                65_535,
            ];
            for wanted in wanted {
                let mut frame = good.bytes.clone();
                put_u16(&mut frame, header + DATA_LENGTH, wanted as u16);
                let known = (wanted > left).then_some(Err(5));
                self.give(family, &frame, known)?;

                // As the last message it may end anywhere in the frame.
                frame[header + TRAILING] = 0;
                let known = if wanted > left {
                    Err(5)
                } else {
                    let before: usize = good.lengths[..message].iter().sum();
                    Ok((message + 1, before + wanted))
                };
                self.give(family, &frame, Some(known))?;
            }
        }
        ControlFlow::Continue(())
    }

    /// A good frame of a few messages with little data.
    fn small(&mut self, messages: usize) -> Good {
        let lengths: Vec<usize> = (0..messages)
            .map(|_| match self.rng.below(4) {
                0 => 0,
                1 => self.rng.between(1, 8),
                _ => self.rng.between(0, 40),
            })
            .collect();
        self.good(&lengths)
    }

    /// A good frame of any number of messages, mostly some thousands of bytes long.
    fn large(&mut self) -> Good {
        let messages = self.rng.between(1, MOST_MESSAGES);
        let lengths = self.lengths_of(messages);
        self.good(&lengths)
    }

    /// Data lengths of so many messages that fit in the longest frame.
    fn lengths_of(&mut self, messages: usize) -> Vec<usize> {
        // What the headers leave. A message that another follows takes eights of it.
        let mut left = LONGEST_FRAME - FRAME_HEADER - messages * MESSAGE_HEADER;
        let largest = self.rng.pick(&[0, 8, 40, 400, LONGEST_FRAME]);
        (0..messages)
            .map(|_| {
                let length = self.rng.between(0, largest.min(left / 8 * 8));
                left -= length.next_multiple_of(8);
                length
            })
            .collect()
    }

    /// Data lengths up to `largest`, but for the last one, which is such that the
    /// frame has exactly `total` bytes.
    fn lengths_to_fill(&mut self, total: usize, largest: usize) -> Vec<usize> {
        let mut lengths = Vec::new();
        let mut header = FRAME_HEADER;
        loop {
            let left = total - header - MESSAGE_HEADER;
            let length = self.rng.between(0, largest.min(left));
            let next = first_header_from(header + MESSAGE_HEADER + length);
            if next + MESSAGE_HEADER > total {
                lengths.push(left);
                return lengths;
            }
            lengths.push(length);
            header = next;
        }
    }

    /// A good frame with these data lengths and anything in all other fields.
    fn good(&mut self, lengths: &[usize]) -> Good {
        let rng = &mut self.rng;
        let data = rng.bytes(lengths.iter().copied().max().unwrap_or(0));
        let mut messages = Vec::new();
        let mut headers = Vec::new();
        let mut end = FRAME_HEADER;
        for &length in lengths {
            messages.push(Message {
                transaction: rng.next_u32(),
                completion_address: rng.next_u32(),
                completion_value: rng.next_u32(),
                count: rng.next_u16(),
                data_address: rng.next_u32(),
                data: &data[..length],
            });
            let header = first_header_from(end);
            headers.push(header);
            end = header + MESSAGE_HEADER + length;
        }
        // 0 is no ID that an end can have, and a layout is read all the same.
        let mut id = || {
            let any = rng.next_u16();
            rng.pick(&[0, 1, 2, 256, 65_535, any])
        };
        let (destination, source) = (id(), id());
        let mut bytes = write_frame(destination, source, rng.next_u16(), &messages);
        // Acknowledgements that are not written so as well: a start without a count.
        let start = rng.next_u16();
        put_u16(&mut bytes, ACK_START, start);
        bytes[ACK_COUNT] = rng.pick(&[0, 0, 1, 255, start as u8]);
        Good {
            bytes,
            headers,
            lengths: lengths.to_vec(),
        }
    }
}

/// The first permitted place of a message header that is not before `end`, found by
/// trying one after another and not by the reader's arithmetic.
fn first_header_from(end: usize) -> usize {
    (end..)
        .find(|at| (at - FRAME_HEADER).is_multiple_of(8))
        .expect("one of eight offsets is permitted")
}

fn put_u16(bytes: &mut [u8], at: usize, value: u16) {
    bytes[at..at + 2].copy_from_slice(&value.to_le_bytes());
}
