//! A frame's layout, which takes no IDs: field by field as the library gives it, and as
//! one value.

use crate::raw;
use crate::refusal::Refusal;

pub use crate::raw::{
    ack_count, ack_start, data_bytes, destination, flags, frame_number, layout_refusal,
    message_count, source,
};

/// What can be told of a frame without knowing any ID.
#[derive(Clone, Copy, Debug, PartialEq, Eq)]
pub struct Layout {
    /// ID of the endpoint that the frame is for.
    pub destination: u16,
    /// ID of the endpoint that it is from.
    pub source: u16,
    /// Frame number.
    pub number: u16,
    /// The first acknowledged number; means nothing while `ack_count` is 0.
    pub ack_start: u16,
    /// How many numbers are acknowledged.
    pub ack_count: u8,
    /// 1 if there are messages, otherwise 0.
    pub flags: u8,
    /// How many messages there are.
    pub messages: u32,
    /// The sum of their data lengths.
    pub data_bytes: u32,
}

impl Layout {
    /// Reads a layout, or gives the first refusal of 1, 2, 4 and 5.
    pub fn of(frame: &[u8]) -> Result<Layout, Refusal> {
        Refusal::check(raw::layout_refusal(frame))?;
        // Each is given in 32 bits and no larger than its field.
        Ok(Layout {
            destination: destination(frame) as u16,
            source: source(frame) as u16,
            number: frame_number(frame) as u16,
            ack_start: ack_start(frame) as u16,
            ack_count: ack_count(frame) as u8,
            flags: flags(frame) as u8,
            messages: message_count(frame),
            data_bytes: data_bytes(frame),
        })
    }
}
