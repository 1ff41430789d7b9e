//! Frames whose bytes the rules spell out, written down field by field, so that
//! every test quotes the same bytes. They are typed in and not built by the
//! writer, because they are what the writer is checked with.

/// The frame of the whole case: one message of four bytes, from 2 to 1.
#[rustfmt::skip]
pub const WHOLE_CASE: [u8; 38] = [
    0x01, 0x00, // destination
    0x02, 0x00, // source
    0x00, 0x00, // frame number
    0x00, 0x00, // ACKStart
    0x00,       // ACKCount
    0x01,       // flags
    0x00, 0x00, 0x00, 0x00, // transaction
    0x40, 0x00, 0x00, 0x00, // completion address
    0x44, 0x33, 0x22, 0x11, // completion value
    0x01, 0x00, // count of data messages
    0x00, 0x00, // unused
    0x00, 0x00, 0x00, 0x00, // data address
    0x04, 0x00, // data length
    0x00,       // unused
    0x00,       // trailing
    0x0a, 0x0b, 0x0c, 0x0d, // data
];

/// The acknowledgement that a fresh host at 1 sends to 2 for that frame.
#[rustfmt::skip]
pub const WHOLE_CASE_ACKNOWLEDGEMENT: [u8; 10] = [
    0x02, 0x00, // destination
    0x01, 0x00, // source
    0x00, 0x00, // frame number
    0x00, 0x00, // ACKStart
    0x01,       // ACKCount
    0x00,       // flags
];
