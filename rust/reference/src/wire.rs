//! Frames as they stand on the wire: reading with the refusals 1 to 5, writing,
//! and what a frame header acknowledges. A frame starts at its frame header (B7),
//! all numbers are little endian (W1), and any bytes at all may be read.

use crate::refusal;

/// Bytes of a frame header (W2).
pub const FRAME_HEADER: usize = 10;
/// Bytes of a message header (W7).
pub const MESSAGE_HEADER: usize = 24;
/// The longest frame that is read (N2).
pub const LONGEST_FRAME: usize = 9_000;
/// The flag bit of a frame with at least one message (W3).
pub const HAS_MESSAGES: u8 = 0x01;

/// Where a message header has its trailing byte (W7).
pub const TRAILING: usize = 23;

/// Message headers stand at multiples of this behind the frame header.
const ALIGNMENT: usize = 8;

/// The fields of a frame header, as they stand there.
#[derive(Clone, Copy, Debug, PartialEq, Eq, Hash)]
pub struct FrameHeader {
    /// ID of the endpoint the frame is for.
    pub destination: u16,
    /// ID of the endpoint the frame is from.
    pub source: u16,
    /// Frame number.
    pub number: u16,
    /// First acknowledged number; means nothing while `ack_count` is 0.
    pub ack_start: u16,
    /// How many numbers are acknowledged.
    pub ack_count: u8,
    /// Flags; only `HAS_MESSAGES` has a meaning.
    pub flags: u8,
}

impl FrameHeader {
    /// The fields of these bytes.
    pub fn from_bytes(bytes: &[u8; FRAME_HEADER]) -> FrameHeader {
        FrameHeader {
            destination: u16_at(bytes, 0),
            source: u16_at(bytes, 2),
            number: u16_at(bytes, 4),
            ack_start: u16_at(bytes, 6),
            ack_count: bytes[8],
            flags: bytes[9],
        }
    }

    /// The header as it stands on the wire.
    pub fn to_bytes(self) -> [u8; FRAME_HEADER] {
        let mut bytes = [0; FRAME_HEADER];
        bytes[0..2].copy_from_slice(&self.destination.to_le_bytes());
        bytes[2..4].copy_from_slice(&self.source.to_le_bytes());
        bytes[4..6].copy_from_slice(&self.number.to_le_bytes());
        bytes[6..8].copy_from_slice(&self.ack_start.to_le_bytes());
        bytes[8] = self.ack_count;
        bytes[9] = self.flags;
        bytes
    }
}

/// One message; its data is a part of the frame it was read from (W15).
#[derive(Clone, Copy, Debug, PartialEq, Eq, Hash)]
pub struct Message<'a> {
    /// Transaction number.
    pub transaction: u32,
    /// Where the completion is written.
    pub completion_address: u32,
    /// What the completion writes.
    pub completion_value: u32,
    /// How many data messages the transaction has.
    pub count: u16,
    /// Where the data is written.
    pub data_address: u32,
    /// The data.
    pub data: &'a [u8],
}

/// A frame that was read.
#[derive(Clone, Debug, PartialEq, Eq, Hash)]
pub struct Frame<'a> {
    /// Its header.
    pub header: FrameHeader,
    /// Its messages in order; none if the flag is clear.
    pub messages: Vec<Message<'a>>,
}

/// What can be told of a frame without knowing any ID (K3).
#[derive(Clone, Copy, Debug, PartialEq, Eq, Hash)]
pub struct Layout {
    /// The header's fields.
    pub header: FrameHeader,
    /// How many messages there are.
    pub messages: usize,
    /// The sum of their data lengths.
    pub data_bytes: usize,
}

/// Reads a frame, or gives the first refusal of 1 to 5 that is met. Without
/// `ids`, which are the own one and then the peer's, 3 is not asked for.
pub fn read(frame: &[u8], ids: Option<(u16, u16)>) -> Result<Frame<'_>, u8> {
    let Some(header) = frame.first_chunk() else {
        return Err(refusal::FRAME_SHORT);
    };
    let header = FrameHeader::from_bytes(header);
    if frame.len() > LONGEST_FRAME {
        return Err(refusal::FRAME_LONG);
    }
    if ids.is_some_and(|ids| ids != (header.destination, header.source)) {
        return Err(refusal::WRONG_ID);
    }
    if header.flags & !HAS_MESSAGES != 0 {
        return Err(refusal::RESERVED_FLAG);
    }
    // The flag alone says whether there are messages: behind a clear one any
    // bytes may stand (W3).
    let messages = if header.flags & HAS_MESSAGES != 0 {
        read_messages(frame)?
    } else {
        Vec::new()
    };
    Ok(Frame { header, messages })
}

fn read_messages(frame: &[u8]) -> Result<Vec<Message<'_>>, u8> {
    let mut messages = Vec::new();
    let mut at = FRAME_HEADER;
    loop {
        let data_start = at + MESSAGE_HEADER;
        let header = frame.get(at..data_start).ok_or(refusal::MESSAGE_CUT)?;
        let data_end = data_start + usize::from(u16_at(header, 20));
        let data = frame
            .get(data_start..data_end)
            .ok_or(refusal::MESSAGE_CUT)?;
        messages.push(Message {
            transaction: u32_at(header, 0),
            completion_address: u32_at(header, 4),
            completion_value: u32_at(header, 8),
            count: u16_at(header, 12),
            data_address: u32_at(header, 16),
            data,
        });
        if !follows(header[TRAILING]) {
            return Ok(messages);
        }
        at = next_header(data_end);
    }
}

/// Whether a trailing byte says that another message follows (W10): 0 is the
/// last message, all else announces one more.
pub fn follows(trailing: u8) -> bool {
    trailing > 0
}

/// Where the header after data that ends at `data_end` starts (W12). The
/// multiples are counted from the end of the frame header, not from 0, and the first
/// header stands there even behind less.
pub fn next_header(data_end: usize) -> usize {
    FRAME_HEADER
        + data_end
            .saturating_sub(FRAME_HEADER)
            .next_multiple_of(ALIGNMENT)
}

/// Reads a frame's layout, or gives the first refusal of 1, 2, 4 and 5 (K2).
pub fn layout(frame: &[u8]) -> Result<Layout, u8> {
    let Frame { header, messages } = read(frame, None)?;
    Ok(Layout {
        header,
        messages: messages.len(),
        data_bytes: messages.iter().map(|message| message.data.len()).sum(),
    })
}

/// Writes a frame of these messages that acknowledges nothing. How long it may
/// become is the caller's affair; data above 65,535 bytes cannot be written.
pub fn write_frame(destination: u16, source: u16, number: u16, messages: &[Message]) -> Vec<u8> {
    let header = FrameHeader {
        destination,
        source,
        number,
        ack_start: 0,
        ack_count: 0,
        flags: if messages.is_empty() { 0 } else { HAS_MESSAGES },
    };
    let mut frame = header.to_bytes().to_vec();
    for (index, message) in messages.iter().enumerate() {
        // Fills the gap behind the message before; the last one is not padded.
        frame.resize(next_header(frame.len()), 0);
        let another = index + 1 < messages.len();
        frame.extend(message_header(message, another));
        frame.extend(message.data);
    }
    frame
}

/// A message's header as it stands on the wire; data above 65,535 bytes has none.
pub fn message_header(message: &Message, another: bool) -> [u8; MESSAGE_HEADER] {
    let length = u16::try_from(message.data.len()).expect("the length field has 16 bits");
    let mut bytes = [0; MESSAGE_HEADER];
    bytes[0..4].copy_from_slice(&message.transaction.to_le_bytes());
    bytes[4..8].copy_from_slice(&message.completion_address.to_le_bytes());
    bytes[8..12].copy_from_slice(&message.completion_value.to_le_bytes());
    bytes[12..14].copy_from_slice(&message.count.to_le_bytes());
    bytes[16..20].copy_from_slice(&message.data_address.to_le_bytes());
    bytes[20..22].copy_from_slice(&length.to_le_bytes());
    bytes[TRAILING] = u8::from(another);
    bytes
}

/// Writes a frame that only acknowledges `count` numbers from `start` on; with
/// no number to acknowledge the start is written 0 (W6).
pub fn ack_frame(
    destination: u16,
    source: u16,
    next_number: u16,
    start: u16,
    count: u8,
) -> [u8; FRAME_HEADER] {
    let header = FrameHeader {
        destination,
        source,
        number: next_number,
        ack_start: if count == 0 { 0 } else { start },
        ack_count: count,
        flags: 0,
    };
    header.to_bytes()
}

/// The numbers a header acknowledges, in order and modulo 65,536 (W5, B4).
pub fn acknowledged(header: &FrameHeader) -> impl Iterator<Item = u16> + use<> {
    let start = header.ack_start;
    (0..u16::from(header.ack_count)).map(move |step| start.wrapping_add(step))
}

fn u16_at(bytes: &[u8], at: usize) -> u16 {
    u16::from_le_bytes([bytes[at], bytes[at + 1]])
}

fn u32_at(bytes: &[u8], at: usize) -> u32 {
    u32::from_le_bytes([bytes[at], bytes[at + 1], bytes[at + 2], bytes[at + 3]])
}

#[cfg(test)]
mod tests {
    use super::*;
    use crate::cases::{WHOLE_CASE, WHOLE_CASE_ACKNOWLEDGEMENT};
    use crate::rng::Rng;

    fn message(transaction: u32, data: &[u8]) -> Message<'_> {
        Message {
            transaction,
            completion_address: 0x0403_0201,
            completion_value: 0x0807_0605,
            count: 0x0a09,
            data_address: 0x0e0d_0c0b,
            data,
        }
    }

    /// The first message has one byte of data, so seven bytes of gap follow.
    fn two_messages() -> Vec<u8> {
        write_frame(1, 2, 3, &[message(4, &[0xaa]), message(5, &[])])
    }

    #[test]
    fn whole_case_reads_as_shown() {
        let frame = read(&WHOLE_CASE, Some((1, 2))).unwrap();
        assert_eq!(
            frame.header,
            FrameHeader {
                destination: 1,
                source: 2,
                number: 0,
                ack_start: 0,
                ack_count: 0,
                flags: 1
            }
        );
        assert_eq!(
            frame.messages,
            [Message {
                transaction: 0,
                completion_address: 64,
                completion_value: 0x1122_3344,
                count: 1,
                data_address: 0,
                data: &[0x0a, 0x0b, 0x0c, 0x0d]
            }]
        );
        let layout = layout(&WHOLE_CASE).unwrap();
        assert_eq!(layout.header, frame.header);
        assert_eq!((layout.messages, layout.data_bytes), (1, 4));
    }

    #[test]
    fn whole_case_is_written_as_shown() {
        let frame = read(&WHOLE_CASE, None).unwrap();
        assert_eq!(write_frame(1, 2, 0, &frame.messages), WHOLE_CASE);
        assert_eq!(ack_frame(2, 1, 0, 0, 1), WHOLE_CASE_ACKNOWLEDGEMENT);
    }

    #[test]
    fn e7_every_shorter_frame_is_refused() {
        for length in 0..WHOLE_CASE.len() {
            let expected = if length < 10 { 1 } else { 5 };
            let cut = &WHOLE_CASE[..length];
            assert_eq!(layout(cut).unwrap_err(), expected, "length {length}");
            assert_eq!(read(cut, Some((1, 2))).unwrap_err(), expected);
        }
    }

    #[test]
    fn e9_second_header_stands_at_42() {
        assert_eq!(next_header(35), 42);
        let frame = two_messages();
        assert_eq!(frame.len(), 66);
        assert_eq!(frame[33], 1, "first message's trailing byte");
        assert_eq!(frame[34], 0xaa);
        assert_eq!(frame[35..42], [0; 7], "gap");
        assert_eq!(frame[42..46], [5, 0, 0, 0], "second transaction");
        assert_eq!(frame[65], 0, "second message's trailing byte");
        assert_eq!(layout(&frame).unwrap().messages, 2);
        assert_eq!(layout(&frame[..65]), Err(5));
    }

    #[test]
    fn next_header_is_the_first_permitted_offset() {
        for data_end in 10..2_000 {
            let first = (data_end..).find(|at| (at - 10) % 8 == 0).unwrap();
            assert_eq!(next_header(data_end), first, "data end {data_end}");
        }
    }

    #[test]
    fn every_field_has_its_place() {
        let frame = write_frame(0x0201, 0x0403, 0x0605, &[message(0x1413_1211, &[0xff; 3])]);
        #[rustfmt::skip]
        let expected = [
            1, 2, 3, 4, 5, 6, 0, 0, 0, 1, // frame header
            0x11, 0x12, 0x13, 0x14, 1, 2, 3, 4, 5, 6, 7, 8, 9, 10, 0, 0, // up to the first unused
            11, 12, 13, 14, 3, 0, 0, 0, // data address, length, unused, trailing
            0xff, 0xff, 0xff,
        ];
        assert_eq!(frame, expected);
        assert_eq!(
            ack_frame(0x0201, 0x0403, 0x0605, 0x0807, 9),
            [1, 2, 3, 4, 5, 6, 7, 8, 9, 0]
        );
    }

    #[test]
    fn what_is_written_reads_back() {
        let mut rng = Rng::new(20);
        for round in 0..4_000 {
            let data = rng.bytes(400);
            let messages: Vec<Message> = (0..rng.below(8))
                .map(|_| {
                    let start = rng.below(data.len());
                    let end = rng.between(start, data.len().min(start + 60));
                    Message {
                        transaction: rng.next_u32(),
                        completion_address: rng.next_u32(),
                        completion_value: rng.next_u32(),
                        count: rng.next_u16(),
                        data_address: rng.next_u32(),
                        data: &data[start..end],
                    }
                })
                .collect();
            let (own, peer, number) = (rng.next_u16(), rng.next_u16(), rng.next_u16());
            let written = write_frame(own, peer, number, &messages);
            let frame = read(&written, Some((own, peer))).unwrap();
            assert_eq!(frame.messages, messages, "round {round}");
            let header = frame.header;
            assert_eq!((header.destination, header.source), (own, peer));
            assert_eq!(header.number, number);
            assert_eq!((header.ack_start, header.ack_count), (0, 0));
            assert_eq!(header.flags, u8::from(!messages.is_empty()));
        }
    }

    #[test]
    fn acknowledgements_read_back() {
        let mut rng = Rng::new(21);
        for count in 0..=255 {
            let (start, number) = (rng.next_u16(), rng.next_u16());
            let written = ack_frame(7, 8, number, start, count);
            let frame = read(&written, Some((7, 8))).unwrap();
            assert!(frame.messages.is_empty());
            assert_eq!(frame.header.number, number);
            let expected: Vec<u16> = (0..u32::from(count))
                .map(|step| ((u32::from(start) + step) % 65_536) as u16)
                .collect();
            assert_eq!(acknowledged(&frame.header).collect::<Vec<_>>(), expected);
        }
    }

    #[test]
    fn a_range_goes_round_from_65535_to_0() {
        let frame = ack_frame(1, 2, 0, 65_535, 3);
        let header = layout(&frame).unwrap().header;
        assert_eq!(acknowledged(&header).collect::<Vec<_>>(), [65_535, 0, 1]);
    }

    #[test]
    fn count_0_acknowledges_nothing_whatever_the_start() {
        assert_eq!(ack_frame(1, 2, 3, 5, 0), [1, 0, 2, 0, 3, 0, 0, 0, 0, 0]);
        let mut frame = ack_frame(1, 2, 3, 0, 0);
        frame[6] = 5;
        let header = layout(&frame).unwrap().header;
        assert_eq!(header.ack_start, 5, "the field is given as it stands");
        assert_eq!(acknowledged(&header).count(), 0);
    }

    #[test]
    fn each_reserved_flag_is_refused() {
        let mut frame = WHOLE_CASE;
        for flags in 2..=255 {
            frame[9] = flags;
            assert_eq!(layout(&frame), Err(4), "flags {flags}");
            assert_eq!(layout(&frame[..10]), Err(4), "flags {flags}");
        }
    }

    #[test]
    fn refusals_come_in_order() {
        let ids = Some((1, 2));
        let mut worst = vec![0xff; LONGEST_FRAME + 1];
        assert_eq!(read(&worst[..9], ids), Err(1));
        assert_eq!(read(&worst, ids), Err(2));
        worst.truncate(LONGEST_FRAME);
        assert_eq!(read(&worst, ids), Err(3));
        assert_eq!(read(&worst, None), Err(4), "3 is skipped without IDs");
        worst[..4].copy_from_slice(&[1, 0, 2, 0]);
        assert_eq!(read(&worst, ids), Err(4));
        worst[9] = 1;
        assert_eq!(read(&worst, ids), Err(5));
        worst[9] = 0;
        assert!(read(&worst, ids).is_ok());
    }

    #[test]
    fn either_wrong_id_is_refused_and_only_with_ids() {
        for ids in [(1, 1), (2, 2), (2, 1), (0, 2), (1, 0), (257, 2), (1, 258)] {
            assert_eq!(read(&WHOLE_CASE, Some(ids)), Err(3), "{ids:?}");
        }
        assert!(read(&WHOLE_CASE, None).is_ok());
    }

    #[test]
    fn only_0_in_the_trailing_byte_means_the_last() {
        let mut frame = two_messages();
        for trailing in 0..=255 {
            frame[33] = trailing;
            let expected = if trailing == 0 { 1 } else { 2 };
            assert_eq!(layout(&frame).unwrap().messages, expected, "{trailing}");
        }
        // Another one is announced and is not there.
        frame[33] = 1;
        for trailing in 1..=255 {
            frame[65] = trailing;
            assert_eq!(layout(&frame), Err(5), "{trailing}");
        }
    }

    #[test]
    fn unused_fields_gaps_and_what_follows_are_ignored() {
        let clean = two_messages();
        let mut junk = clean.clone();
        junk[35..42].fill(0xee);
        for header in [10, 42] {
            junk[header + 14..header + 16].fill(0xee);
            junk[header + 22] = 0xee;
        }
        junk.extend([0xee; 30]);
        assert_eq!(read(&junk, None), read(&clean, None));
    }

    #[test]
    fn a_clear_flag_means_no_messages_whatever_follows() {
        let mut frame = vec![0xff; LONGEST_FRAME + 1];
        frame[9] = 0;
        for length in 10..=LONGEST_FRAME {
            let layout = layout(&frame[..length]).unwrap();
            assert_eq!((layout.messages, layout.data_bytes), (0, 0));
        }
        assert_eq!(layout(&frame), Err(2));
        // A set one needs a message.
        assert_eq!(layout(&[0, 0, 0, 0, 0, 0, 0, 0, 0, 1]), Err(5));
    }

    #[test]
    fn the_longest_frame_and_the_most_messages() {
        let data = vec![0x55; LONGEST_FRAME - FRAME_HEADER - MESSAGE_HEADER + 1];
        let frame = write_frame(1, 2, 0, &[message(0, &data)]);
        assert_eq!(layout(&frame), Err(2));
        let frame = write_frame(1, 2, 0, &[message(0, &data[1..])]);
        assert_eq!(frame.len(), LONGEST_FRAME);
        assert_eq!(layout(&frame).unwrap().data_bytes, 8_966);

        let frame = write_frame(1, 2, 0, &[message(0, &[]); 374]);
        assert_eq!(frame.len(), 8_986);
        assert_eq!(layout(&frame).unwrap().messages, 374);
        let frame = write_frame(1, 2, 0, &[message(0, &[]); 375]);
        assert_eq!(layout(&frame), Err(2));
    }

    #[test]
    fn data_is_a_part_of_the_lent_frame() {
        let lent = two_messages();
        let frame = read(&lent, None).unwrap();
        assert!(std::ptr::eq(frame.messages[0].data, &lent[34..35]));
        assert!(std::ptr::eq(frame.messages[1].data, &lent[66..66]));
    }
}
