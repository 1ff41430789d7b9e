//! The sizes of the windows, and where numbers stop being ahead and count as behind.
//! Both ends hold them as a value, so that a test can give an end other sizes and
//! show what those break.

/// Sizes that an end goes by.
#[derive(Clone, Copy, Debug, PartialEq, Eq)]
pub struct Windows {
    /// Frames: sealed and not released at the card (N21), from the next one on at the
    /// host (H4).
    pub frames: i64,
    /// The first distance at which a frame number is behind at the host (H4).
    pub behind: i64,
    /// Transactions: from the lowest unfinished one on at the card (N20), from the
    /// lowest one not complete on at the host (H9).
    pub transactions: i64,
}

impl Windows {
    /// The sizes that the rules give.
    pub const RULES: Windows = Windows {
        frames: 64,
        behind: 32_768,
        transactions: 32,
    };
}
