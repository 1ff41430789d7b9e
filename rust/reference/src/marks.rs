//! Marks in a word, counted one after another.

/// How many of 64 marks, from bit 0 on, are set before the first clear one (H27).
pub fn count(marks: u64) -> usize {
    (0..64)
        .take_while(|place| marks & (1 << place) != 0)
        .count()
}

#[cfg(test)]
mod tests {
    use super::count;

    #[test]
    fn worked_by_hand() {
        let cases = [
            (0, 0),
            (1, 1),
            (2, 0),
            (0b1011, 2),
            (0b0111, 3),
            (0xffff_ffff, 32),
            (0x7fff_ffff_ffff_ffff, 63),
            (0xbfff_ffff_ffff_ffff, 62),
            (0x8000_0000_0000_0000, 0),
            (0xffff_ffff_ffff_fffe, 0),
            (u64::MAX, 64),
        ];
        for (marks, set) in cases {
            assert_eq!(count(marks), set, "{marks:#x}");
        }
    }
}
