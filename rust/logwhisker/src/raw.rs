//! The exported functions one by one, on numbers, slices and arrays, as the library has
//! them: all unsafe code is here. A return value of 0 is success and any other the
//! refusal's number, where a function does not say otherwise. No compiler compares the
//! declarations with the library: tools/check-claims does.

#![allow(unsafe_code)]

/// Words of a host's state.
pub const HOST_WORDS: usize = 67;
/// Words of a plain host's state: own, peer, next, lowest, 64 marks of frames, 32 of
/// transactions, and address, value, count and received of each of 32 open places.
pub const PLAIN_WORDS: usize = 228;
/// Words of a table's state.
pub const TABLE_WORDS: usize = 1_121;
/// Words of a table's description: own, and source, first byte and length of each place.
pub const TABLE_DESCRIPTION_WORDS: usize = 49;
/// Words of a ledger's state.
pub const LEDGER_WORDS: usize = 2_049;
/// Words of a card's state.
pub const CARD_WORDS: usize = 85;
/// Words of an answer: kind, number, messages, bytes, completed, refusal, place, run.
pub const ANSWER_WORDS: usize = 8;
/// Words of a description: own, peer, next, marks, lowest, closed, open, and five for
/// each of up to 32 open transactions.
pub const DESCRIPTION_WORDS: usize = 167;

/// Words of a replay's place.
pub const REPLAY_WORDS: usize = 9;
/// Bytes of a line that a replay holds.
pub const REPLAY_FRAME: usize = 9_000;
/// Bytes of a replay's memory.
pub const REPLAY_MEMORY: usize = 4_096;

/// Kinds of an answer.
pub const ACCEPTED: u32 = 1;
/// See [`ACCEPTED`].
pub const AGAIN: u32 = 2;
/// See [`ACCEPTED`].
pub const NO_MESSAGES: u32 = 3;
/// See [`ACCEPTED`].
pub const REFUSED: u32 = 4;

mod exported {
    // A slice crosses the boundary as a pointer and then a length, a reference to an
    // array or a number as a pointer alone.
    unsafe extern "C" {
        pub fn lw_raw_host_open(words: *mut u64, own: u16, peer: u16) -> u32;
        pub fn lw_raw_host_receive(
            words: *mut u64,
            frame: *const u8,
            length: usize,
            memory: *mut u8,
            size: usize,
            answer: *mut u64,
        ) -> u32;
        pub fn lw_raw_plain_open(words: *mut u64, own: u16, peer: u16) -> u32;
        pub fn lw_raw_plain_receive(
            words: *mut u64,
            frame: *const u8,
            length: usize,
            memory: *mut u8,
            size: usize,
            answer: *mut u64,
        ) -> u32;
        pub fn lw_raw_plain_acknowledge(
            words: *const u64,
            answer: *const u64,
            number: u16,
            frame: *mut u8,
        ) -> u32;
        pub fn lw_raw_host_acknowledge(
            words: *const u64,
            answer: *const u64,
            number: u16,
            frame: *mut u8,
        ) -> u32;
        pub fn lw_raw_host_open_by_value(words: *mut u64, own: u16, peer: u16) -> u32;
        pub fn lw_raw_host_receive_by_value(
            words: *mut u64,
            frame: *const u8,
            length: usize,
            memory: *mut u8,
            size: usize,
            answer: *mut u64,
        ) -> u32;
        pub fn lw_raw_host_acknowledge_by_value(
            words: *const u64,
            answer: *const u64,
            number: u16,
            frame: *mut u8,
        ) -> u32;
        pub fn lw_raw_host_describe(words: *const u64, description: *mut u64);
        pub fn lw_raw_host_store(
            words: *const u64,
            text: *mut u8,
            size: usize,
            length: *mut usize,
        ) -> u32;
        pub fn lw_raw_host_restore(words: *mut u64, text: *const u8, length: usize) -> u32;
        pub fn lw_raw_table_open(words: *mut u64, own: u16) -> u32;
        pub fn lw_raw_table_register(
            words: *mut u64,
            source: u16,
            first: usize,
            size: usize,
            memory: usize,
        ) -> u32;
        pub fn lw_raw_table_remove(words: *mut u64, source: u16) -> u32;
        pub fn lw_raw_table_receive(
            words: *mut u64,
            frame: *const u8,
            length: usize,
            memory: *mut u8,
            size: usize,
            source: *mut u16,
            answer: *mut u64,
        ) -> u32;
        pub fn lw_raw_table_acknowledge(
            words: *const u64,
            source: u16,
            answer: *const u64,
            number: u16,
            frame: *mut u8,
        ) -> u32;
        pub fn lw_raw_table_take(words: *const u64, source: u16, pair: *mut u64) -> u32;
        pub fn lw_raw_table_adopt(
            words: *mut u64,
            pair: *const u64,
            first: usize,
            size: usize,
            memory: usize,
        ) -> u32;
        pub fn lw_raw_table_describe(words: *const u64, description: *mut u64);
        pub fn lw_raw_ledger_open(words: *mut u64);
        pub fn lw_raw_ledger_take(words: *mut u64, block: *const u8, length: usize) -> u32;
        pub fn lw_raw_ledger_total(words: *const u64, subscriber: u32, total: *mut u64) -> u32;
        pub fn lw_raw_ledger_sum(words: *const u64) -> u64;
        pub fn lw_raw_replay_open(place: *mut u64, words: *mut u64, memory: *mut u8);
        pub fn lw_raw_replay_feed(
            place: *mut u64,
            words: *mut u64,
            frame: *mut u8,
            memory: *mut u8,
            fragment: *const u8,
            length: usize,
            taken: *mut usize,
            answer: *mut u64,
        ) -> u32;
        pub fn lw_raw_replay_close(
            place: *mut u64,
            words: *mut u64,
            frame: *const u8,
            memory: *mut u8,
            answer: *mut u64,
            totals: *mut u64,
        ) -> u32;
        pub fn lw_raw_card_open(
            words: *mut u64,
            own: u16,
            peer: u16,
            limit: usize,
            slots: *const u8,
            size: usize,
        ) -> u32;
        pub fn lw_raw_card_open_transaction(
            words: *mut u64,
            count: u16,
            address: u32,
            value: u32,
            transaction: *mut u32,
        ) -> u32;
        pub fn lw_raw_card_add(
            words: *mut u64,
            slots: *mut u8,
            size: usize,
            transaction: u32,
            address: u32,
            data: *const u8,
            length: usize,
        ) -> u32;
        pub fn lw_raw_card_seal(
            words: *mut u64,
            slots: *const u8,
            size: usize,
            number: *mut u16,
        ) -> u32;
        pub fn lw_raw_card_read(words: *mut u64, frame: *const u8, length: usize) -> u32;
        pub fn lw_raw_card_show(
            words: *const u64,
            slots: *const u8,
            size: usize,
            number: u16,
            part: *mut u64,
        ) -> u32;
        pub fn lw_raw_card_choose(
            words: *const u64,
            slots: *const u8,
            size: usize,
            ack: *const u8,
            length: usize,
            part: *mut u64,
        ) -> u32;

        pub fn lw_layout_refusal(frame: *const u8, length: usize) -> u32;
        pub fn lw_destination(frame: *const u8, length: usize) -> u32;
        pub fn lw_source(frame: *const u8, length: usize) -> u32;
        pub fn lw_frame_number(frame: *const u8, length: usize) -> u32;
        pub fn lw_ack_start(frame: *const u8, length: usize) -> u32;
        pub fn lw_ack_count(frame: *const u8, length: usize) -> u32;
        pub fn lw_flags(frame: *const u8, length: usize) -> u32;
        pub fn lw_message_count(frame: *const u8, length: usize) -> u32;
        pub fn lw_data_bytes(frame: *const u8, length: usize) -> u32;
        // These take a number and answer one, so nothing can go wrong in calling them.
        pub safe fn lw_refusal_class(number: u32) -> u32;
        pub safe fn lw_trailing_ones(marks: u64) -> u32;
    }
}

// SAFETY of all calls below: every pointer comes from a reference to an array of the
// length that the library takes, or stands with its length for a slice; all stay borrowed
// during the call, for writing where the library writes, and it keeps none of them.

/// Opens a host: 0 or 13.
#[inline]
pub fn host_open(words: &mut [u64; HOST_WORDS], own: u16, peer: u16) -> u32 {
    unsafe { exported::lw_raw_host_open(words.as_mut_ptr(), own, peer) }
}

/// Receives a frame and gives the answer's kind.
#[inline]
pub fn host_receive(
    words: &mut [u64; HOST_WORDS],
    frame: &[u8],
    memory: &mut [u8],
    answer: &mut [u64; ANSWER_WORDS],
) -> u32 {
    unsafe {
        exported::lw_raw_host_receive(
            words.as_mut_ptr(),
            frame.as_ptr(),
            frame.len(),
            memory.as_mut_ptr(),
            memory.len(),
            answer.as_mut_ptr(),
        )
    }
}

/// Opens a plain host: 0 or 13.
#[inline]
pub fn plain_open(words: &mut [u64; PLAIN_WORDS], own: u16, peer: u16) -> u32 {
    unsafe { exported::lw_raw_plain_open(words.as_mut_ptr(), own, peer) }
}

/// Receives a frame at a plain host and gives the answer's kind.
#[inline]
pub fn plain_receive(
    words: &mut [u64; PLAIN_WORDS],
    frame: &[u8],
    memory: &mut [u8],
    answer: &mut [u64; ANSWER_WORDS],
) -> u32 {
    unsafe {
        exported::lw_raw_plain_receive(
            words.as_mut_ptr(),
            frame.as_ptr(),
            frame.len(),
            memory.as_mut_ptr(),
            memory.len(),
            answer.as_mut_ptr(),
        )
    }
}

/// Writes the acknowledgement that an answer calls for at a plain host and gives 1;
/// otherwise 0, and nothing is written.
#[inline]
pub fn plain_acknowledge(
    words: &[u64; PLAIN_WORDS],
    answer: &[u64; ANSWER_WORDS],
    number: u16,
    frame: &mut [u8; 10],
) -> u32 {
    unsafe {
        exported::lw_raw_plain_acknowledge(
            words.as_ptr(),
            answer.as_ptr(),
            number,
            frame.as_mut_ptr(),
        )
    }
}

/// Writes the acknowledgement that an answer calls for and gives 1; otherwise 0, and
/// nothing is written.
#[inline]
pub fn host_acknowledge(
    words: &[u64; HOST_WORDS],
    answer: &[u64; ANSWER_WORDS],
    number: u16,
    frame: &mut [u8; 10],
) -> u32 {
    unsafe {
        exported::lw_raw_host_acknowledge(
            words.as_ptr(),
            answer.as_ptr(),
            number,
            frame.as_mut_ptr(),
        )
    }
}

/// As [`host_open`], with the pair opened as a value and packed into the words.
#[inline]
pub fn host_open_by_value(words: &mut [u64; HOST_WORDS], own: u16, peer: u16) -> u32 {
    unsafe { exported::lw_raw_host_open_by_value(words.as_mut_ptr(), own, peer) }
}

/// As [`host_receive`], with the pair unpacked from the words, received by value, and packed
/// where the frame is accepted.
#[inline]
pub fn host_receive_by_value(
    words: &mut [u64; HOST_WORDS],
    frame: &[u8],
    memory: &mut [u8],
    answer: &mut [u64; ANSWER_WORDS],
) -> u32 {
    unsafe {
        exported::lw_raw_host_receive_by_value(
            words.as_mut_ptr(),
            frame.as_ptr(),
            frame.len(),
            memory.as_mut_ptr(),
            memory.len(),
            answer.as_mut_ptr(),
        )
    }
}

/// As [`host_acknowledge`], from the pair unpacked from the words.
#[inline]
pub fn host_acknowledge_by_value(
    words: &[u64; HOST_WORDS],
    answer: &[u64; ANSWER_WORDS],
    number: u16,
    frame: &mut [u8; 10],
) -> u32 {
    unsafe {
        exported::lw_raw_host_acknowledge_by_value(
            words.as_ptr(),
            answer.as_ptr(),
            number,
            frame.as_mut_ptr(),
        )
    }
}

/// Writes all words of the description.
#[inline]
pub fn host_describe(words: &[u64; HOST_WORDS], description: &mut [u64; DESCRIPTION_WORDS]) {
    unsafe { exported::lw_raw_host_describe(words.as_ptr(), description.as_mut_ptr()) }
}

/// Stores a host as text: 0 and the text's length, or 13 or 19 and 0.
pub fn host_store(words: &[u64; HOST_WORDS], text: &mut [u8], length: &mut usize) -> u32 {
    unsafe { exported::lw_raw_host_store(words.as_ptr(), text.as_mut_ptr(), text.len(), length) }
}

/// Reads a host back from its text: 0 or 15.
pub fn host_restore(words: &mut [u64; HOST_WORDS], text: &[u8]) -> u32 {
    unsafe { exported::lw_raw_host_restore(words.as_mut_ptr(), text.as_ptr(), text.len()) }
}

/// Opens a table: 0 or 13.
#[inline]
pub fn table_open(words: &mut [u64; TABLE_WORDS], own: u16) -> u32 {
    unsafe { exported::lw_raw_table_open(words.as_mut_ptr(), own) }
}

/// Registers a card with a region of a memory of so many bytes: 0 or the refusal.
#[inline]
pub fn table_register(
    words: &mut [u64; TABLE_WORDS],
    source: u16,
    first: usize,
    size: usize,
    memory: usize,
) -> u32 {
    unsafe { exported::lw_raw_table_register(words.as_mut_ptr(), source, first, size, memory) }
}

/// Removes a card: 0 or 3.
#[inline]
pub fn table_remove(words: &mut [u64; TABLE_WORDS], source: u16) -> u32 {
    unsafe { exported::lw_raw_table_remove(words.as_mut_ptr(), source) }
}

/// Receives a frame at a table and gives the answer's kind.
#[inline]
pub fn table_receive(
    words: &mut [u64; TABLE_WORDS],
    frame: &[u8],
    memory: &mut [u8],
    source: &mut u16,
    answer: &mut [u64; ANSWER_WORDS],
) -> u32 {
    unsafe {
        exported::lw_raw_table_receive(
            words.as_mut_ptr(),
            frame.as_ptr(),
            frame.len(),
            memory.as_mut_ptr(),
            memory.len(),
            source,
            answer.as_mut_ptr(),
        )
    }
}

/// Writes the acknowledgement to a source that an answer calls for: 1 if it does, else 0.
#[inline]
pub fn table_acknowledge(
    words: &[u64; TABLE_WORDS],
    source: u16,
    answer: &[u64; ANSWER_WORDS],
    number: u16,
    frame: &mut [u8; 10],
) -> u32 {
    unsafe {
        exported::lw_raw_table_acknowledge(
            words.as_ptr(),
            source,
            answer.as_ptr(),
            number,
            frame.as_mut_ptr(),
        )
    }
}

/// Copies a card's pair out as a host's words: 0 or 3.
#[inline]
pub fn table_take(words: &[u64; TABLE_WORDS], source: u16, pair: &mut [u64; HOST_WORDS]) -> u32 {
    unsafe { exported::lw_raw_table_take(words.as_ptr(), source, pair.as_mut_ptr()) }
}

/// Registers a host's peer with the host's pair: 0 or the refusal.
#[inline]
pub fn table_adopt(
    words: &mut [u64; TABLE_WORDS],
    pair: &[u64; HOST_WORDS],
    first: usize,
    size: usize,
    memory: usize,
) -> u32 {
    unsafe { exported::lw_raw_table_adopt(words.as_mut_ptr(), pair.as_ptr(), first, size, memory) }
}

/// Describes a table.
#[inline]
pub fn table_describe(
    words: &[u64; TABLE_WORDS],
    description: &mut [u64; TABLE_DESCRIPTION_WORDS],
) {
    unsafe { exported::lw_raw_table_describe(words.as_ptr(), description.as_mut_ptr()) }
}

/// Opens a ledger.
#[inline]
pub fn ledger_open(words: &mut [u64; LEDGER_WORDS]) {
    unsafe { exported::lw_raw_ledger_open(words.as_mut_ptr()) }
}

/// Takes a block: 0 or the refusal.
#[inline]
pub fn ledger_take(words: &mut [u64; LEDGER_WORDS], block: &[u8]) -> u32 {
    unsafe { exported::lw_raw_ledger_take(words.as_mut_ptr(), block.as_ptr(), block.len()) }
}

/// Writes a subscriber's total: 1 if it was ever read, else 0.
#[inline]
pub fn ledger_total(words: &[u64; LEDGER_WORDS], subscriber: u32, total: &mut u64) -> u32 {
    unsafe { exported::lw_raw_ledger_total(words.as_ptr(), subscriber, total) }
}

/// The sum of all totals.
#[inline]
pub fn ledger_sum(words: &[u64; LEDGER_WORDS]) -> u64 {
    unsafe { exported::lw_raw_ledger_sum(words.as_ptr()) }
}

/// Opens a replay.
#[inline]
pub fn replay_open(
    place: &mut [u64; REPLAY_WORDS],
    words: &mut [u64; HOST_WORDS],
    memory: &mut [u8; REPLAY_MEMORY],
) {
    unsafe {
        exported::lw_raw_replay_open(place.as_mut_ptr(), words.as_mut_ptr(), memory.as_mut_ptr())
    }
}

/// Feeds a fragment, and gives 1 with the answer's words, 0, or 17; `taken` is how many
/// bytes were taken.
#[inline]
pub fn replay_feed(
    place: &mut [u64; REPLAY_WORDS],
    words: &mut [u64; HOST_WORDS],
    frame: &mut [u8; REPLAY_FRAME],
    memory: &mut [u8; REPLAY_MEMORY],
    fragment: &[u8],
    taken: &mut usize,
    answer: &mut [u64; ANSWER_WORDS],
) -> u32 {
    unsafe {
        exported::lw_raw_replay_feed(
            place.as_mut_ptr(),
            words.as_mut_ptr(),
            frame.as_mut_ptr(),
            memory.as_mut_ptr(),
            fragment.as_ptr(),
            fragment.len(),
            taken,
            answer.as_mut_ptr(),
        )
    }
}

/// Closes a replay, and gives 1 with the answer's words, or 0, both with the totals; or
/// 17, and then nothing is written.
#[inline]
pub fn replay_close(
    place: &mut [u64; REPLAY_WORDS],
    words: &mut [u64; HOST_WORDS],
    frame: &[u8; REPLAY_FRAME],
    memory: &mut [u8; REPLAY_MEMORY],
    answer: &mut [u64; ANSWER_WORDS],
    totals: &mut [u64; 3],
) -> u32 {
    unsafe {
        exported::lw_raw_replay_close(
            place.as_mut_ptr(),
            words.as_mut_ptr(),
            frame.as_ptr(),
            memory.as_mut_ptr(),
            answer.as_mut_ptr(),
            totals.as_mut_ptr(),
        )
    }
}

/// Opens a card.
#[inline]
pub fn card_open(
    words: &mut [u64; CARD_WORDS],
    own: u16,
    peer: u16,
    limit: usize,
    slots: &[u8],
) -> u32 {
    unsafe {
        exported::lw_raw_card_open(
            words.as_mut_ptr(),
            own,
            peer,
            limit,
            slots.as_ptr(),
            slots.len(),
        )
    }
}

/// Opens a transaction; where it is refused, `transaction` stays as it was.
#[inline]
pub fn card_open_transaction(
    words: &mut [u64; CARD_WORDS],
    count: u16,
    address: u32,
    value: u32,
    transaction: &mut u32,
) -> u32 {
    unsafe {
        exported::lw_raw_card_open_transaction(
            words.as_mut_ptr(),
            count,
            address,
            value,
            transaction,
        )
    }
}

/// Adds a message.
#[inline]
pub fn card_add(
    words: &mut [u64; CARD_WORDS],
    slots: &mut [u8],
    transaction: u32,
    address: u32,
    data: &[u8],
) -> u32 {
    unsafe {
        exported::lw_raw_card_add(
            words.as_mut_ptr(),
            slots.as_mut_ptr(),
            slots.len(),
            transaction,
            address,
            data.as_ptr(),
            data.len(),
        )
    }
}

/// Seals; where it is refused, `number` stays as it was.
#[inline]
pub fn card_seal(words: &mut [u64; CARD_WORDS], slots: &[u8], number: &mut u16) -> u32 {
    unsafe { exported::lw_raw_card_seal(words.as_mut_ptr(), slots.as_ptr(), slots.len(), number) }
}

/// Reads a frame's acknowledgements.
#[inline]
pub fn card_read(words: &mut [u64; CARD_WORDS], frame: &[u8]) -> u32 {
    unsafe { exported::lw_raw_card_read(words.as_mut_ptr(), frame.as_ptr(), frame.len()) }
}

/// Shows a held frame: its offset in the slots and its length, both 0 where refused.
#[inline]
pub fn card_show(words: &[u64; CARD_WORDS], slots: &[u8], number: u16, part: &mut [u64; 2]) -> u32 {
    unsafe {
        exported::lw_raw_card_show(
            words.as_ptr(),
            slots.as_ptr(),
            slots.len(),
            number,
            part.as_mut_ptr(),
        )
    }
}

/// Chooses what goes out next: 1 for the lent acknowledgement and 0 for a frame in the
/// slots, its offset in that buffer and its length; all 0 where refused.
#[inline]
pub fn card_choose(
    words: &[u64; CARD_WORDS],
    slots: &[u8],
    ack: &[u8],
    part: &mut [u64; 3],
) -> u32 {
    unsafe {
        exported::lw_raw_card_choose(
            words.as_ptr(),
            slots.as_ptr(),
            slots.len(),
            ack.as_ptr(),
            ack.len(),
            part.as_mut_ptr(),
        )
    }
}

macro_rules! of_frame {
    ($($(#[$doc:meta])* $name:ident = $exported:ident,)*) => {$(
        $(#[$doc])*
        #[inline]
        pub fn $name(frame: &[u8]) -> u32 {
            unsafe { exported::$exported(frame.as_ptr(), frame.len()) }
        }
    )*};
}

of_frame! {
    /// The first refusal of 1, 2, 4 and 5 that applies to the layout, or 0 for none.
    layout_refusal = lw_layout_refusal,
    /// The destination ID, or 0 if the layout is refused.
    destination = lw_destination,
    /// The source ID, or 0 if the layout is refused.
    source = lw_source,
    /// The frame number, or 0 if the layout is refused.
    frame_number = lw_frame_number,
    /// ACKStart as it stands, also with ACKCount 0, or 0 if the layout is refused.
    ack_start = lw_ack_start,
    /// ACKCount, or 0 if the layout is refused.
    ack_count = lw_ack_count,
    /// The flags, or 0 if the layout is refused.
    flags = lw_flags,
    /// The number of messages, or 0 if the layout is refused or the flag is clear.
    message_count = lw_message_count,
    /// The sum of the data lengths, or 0 if the layout is refused or the flag is clear.
    data_bytes = lw_data_bytes,
}

/// The class of a refusal number: 0 none, 1 wire, 2 message, 3 caller, 4 card.
#[inline]
pub fn refusal_class(number: u32) -> u32 {
    exported::lw_refusal_class(number)
}

/// How many of 64 marks, from bit 0 on, are set before the first clear one.
#[inline]
pub fn trailing_ones(marks: u64) -> u32 {
    exported::lw_trailing_ones(marks)
}
