//! Frames that are aimed at the state of a pair and at the end of what it writes to: most
//! are accepted, and the others miss by little. Frames that are damaged on their way.

use crate::host::{Host, Terms};
use crate::rng::Rng;
use crate::wire::{LONGEST_FRAME, Message, write_frame};

/// Data bytes of a message at most.
const LONGEST_DATA: usize = 12;
/// Larger memories are aimed at as if they had so many bytes.
const MOST_MEMORY: u64 = 4_096;

/// Frame numbers worth trying, from the next one on.
const NUMBER_STEPS: [u16; 9] = [1, 2, 62, 63, 64, 32_767, 32_768, 65_534, 65_535];
/// Transactions worth trying, from the lowest one not complete on.
const TRANSACTION_STEPS: [u32; 6] = [1, 30, 31, 32, 1 << 31, u32::MAX];

/// A frame to the pair from its peer, for a memory of so many bytes.
pub fn frame(rng: &mut Rng, pair: &Host, memory: u64) -> Vec<u8> {
    let memory = memory.min(MOST_MEMORY) as usize;
    let step = match rng.below(12) {
        0..8 => 0,
        8..10 => rng.below(64) as u16,
        _ => rng.pick(&NUMBER_STEPS),
    };
    let number = pair.next().wrapping_add(step);
    let data = rng.bytes(4 * LONGEST_DATA);
    // What the messages before one leave decides what is in order next.
    let mut host = pair.clone();
    let mut written = vec![0; memory];
    let mut messages = Vec::new();
    for _ in 0..rng.between(1, 4) {
        let message = message(rng, &host, &data, memory);
        // A refused one leaves all as it was, here as well.
        let _ = host.take(&message, &mut written);
        messages.push(message);
    }
    if rng.chance(1, 20) {
        messages.clear();
    }
    let (own, peer) = pair.ids();
    write_frame(own, peer, number, &messages)
}

fn message<'a>(rng: &mut Rng, pair: &Host, data: &'a [u8], memory: usize) -> Message<'a> {
    let open = pair.open_in_order();
    let free = (0..32).map(|step| pair.lowest().wrapping_add(step));
    let free = free.filter(|transaction| {
        !pair.is_closed(*transaction) && !pair.open_transactions().contains_key(transaction)
    });
    let free: Vec<u32> = free.take(3).collect();
    let (transaction, terms) = match rng.below(40) {
        0 => {
            let step = rng.pick(&TRANSACTION_STEPS);
            (pair.lowest().wrapping_add(step), any_terms(rng, memory))
        }
        1..20 if !free.is_empty() => (rng.pick(&free), any_terms(rng, memory)),
        // The lowest one rather often, so that the window moves.
        20..30 if !open.is_empty() => (open[0].0, open[0].1.terms),
        _ if !open.is_empty() => {
            let (transaction, open) = rng.pick(&open);
            (transaction, open.terms)
        }
        _ => (pair.lowest(), any_terms(rng, memory)),
    };
    let longest = if terms.count == 0 && !rng.chance(1, 8) {
        0
    } else {
        LONGEST_DATA.min(memory)
    };
    let length = rng.below(longest + 1);
    let start = rng.below(data.len() - length);
    Message {
        transaction,
        completion_address: terms.completion_address,
        completion_value: terms
            .completion_value
            .wrapping_add(u32::from(rng.chance(1, 60))),
        count: terms.count,
        data_address: address(rng, length, memory),
        data: &data[start..start + length],
    }
}

fn any_terms(rng: &mut Rng, memory: usize) -> Terms {
    Terms {
        count: rng.pick(&[0, 1, 1, 1, 2, 3]),
        completion_address: address(rng, 4, memory),
        completion_value: rng.next_u32(),
    }
}

/// Mostly where so many bytes fit, their last one often memory's last.
fn address(rng: &mut Rng, length: usize, memory: usize) -> u32 {
    let last = memory.saturating_sub(length);
    match rng.below(60) {
        0 => last as u32 + 1,
        1 => u32::MAX - rng.below(6) as u32,
        2..14 => last as u32,
        14..20 => 0,
        _ => rng.below(last + 1) as u32,
    }
}

/// A frame that does not arrive as it was sent; its IDs may be others then.
pub fn damaged(rng: &mut Rng, frame: &[u8]) -> Vec<u8> {
    let mut frame = frame.to_vec();
    match rng.below(8) {
        0 => frame.truncate(rng.below(frame.len() + 1)),
        1 => drop(frame.pop()),
        2 => {
            let length = LONGEST_FRAME + rng.below(2);
            frame.resize(length.max(frame.len()), 0);
        }
        3 => frame.extend(rng.bytes(9)),
        4 if frame.len() > 9 => frame[9] = rng.pick(&[0, 1, 2, 3, 128, 255]),
        5 if frame.len() > 3 => frame[rng.below(4)] ^= 1 << rng.below(3),
        6 if frame.len() > 33 => frame[33] = rng.next_u8(),
        _ if frame.is_empty() => {}
        _ => {
            let at = rng.below(frame.len());
            frame[at] ^= 1 << rng.below(8);
        }
    }
    frame
}

#[cfg(test)]
mod tests {
    use super::*;
    use crate::host::Answer;

    /// Without these, comparisons by such frames would be about next to nothing.
    #[test]
    fn every_answer_is_met_and_most_frames_are_accepted() {
        let mut rng = Rng::new(1);
        let mut pair = Host::starting_at(1, 2, 65_500, u32::MAX - 20);
        let mut memory = [0; 40];
        let (mut met, mut accepted) = ([0; 13], 0);
        for _ in 0..20_000 {
            let frame = frame(&mut rng, &pair, memory.len() as u64);
            let damaged = damaged(&mut rng, &frame);
            let frame = if rng.chance(1, 5) { damaged } else { frame };
            match pair.receive(&frame, &mut memory) {
                Answer::Refused { number, .. } => met[usize::from(number)] += 1,
                Answer::Accepted { .. } => accepted += 1,
                Answer::Again { .. } | Answer::NoMessages => met[0] += 1,
            }
        }
        assert!(accepted > 8_000, "{accepted} accepted, {met:?}");
        assert!(met.iter().all(|met| *met >= 20), "{met:?}");
        assert!(pair.next() < 60_000 && pair.lowest() < 1 << 31);
    }
}
