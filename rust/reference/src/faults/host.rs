//! Hosts with a fault. Most let the reference's host answer and then spoil the answer,
//! memory or the frame that it sees.

use super::Fault;
use crate::ends::HostEnd;
use crate::host::{Answer, Host, LONGEST_RUN};
use crate::refusal;
use crate::wire::{self, FRAME_HEADER, Message};

/// A host with a fault; it has none if there is none or it is the card's.
#[derive(Clone, Debug)]
pub struct FaultyHost {
    fault: Option<Fault>,
    host: Host,
    accepted: u64,
}

impl FaultyHost {
    /// Puts the fault into a host.
    pub fn new(fault: Option<Fault>, host: Host) -> FaultyHost {
        FaultyHost {
            fault,
            host,
            accepted: 0,
        }
    }

    /// The messages of a frame that gets past refusals 1 to 5, and its number.
    fn read<'a>(&self, frame: &'a [u8]) -> Option<(u16, Vec<Message<'a>>)> {
        let frame = wire::read(frame, Some(self.host.ids())).ok()?;
        (!frame.messages.is_empty()).then_some((frame.header.number, frame.messages))
    }

    /// What it answers without asking, if its fault is of that kind.
    fn hasty_answer(&self, frame: &[u8]) -> Option<Answer> {
        let (number, messages) = self.read(frame)?;
        let refused = |number, place| Some(Answer::Refused { number, place });
        let run = self.host.run(number).max(1);
        let again = Answer::Again { number, run };
        let next = self.host.next();
        match self.fault? {
            Fault::HostRefusesAll => refused(refusal::FRAME_AHEAD, 0),
            Fault::HostAgainToAll => Some(again),
            Fault::HostTakesFirstOnly if self.accepted > 0 => Some(again),
            Fault::HostFramesByLessThan if number < next => Some(again),
            Fault::HostFramesByLessThan if number - next >= 64 => refused(refusal::FRAME_AHEAD, 0),
            Fault::HostTransactionsByLessThan => {
                let lowest = self.host.lowest();
                let old = |message: &Message| message.transaction < lowest;
                let place = messages.iter().position(old)?;
                let new = !matches!(self.answer_only(frame), Answer::Again { .. });
                new.then_some(Answer::Refused {
                    number: refusal::TRANSACTION_OUTSIDE,
                    place,
                })
            }
            _ => None,
        }
    }

    /// What the reference answers, with no effect.
    fn answer_only(&self, frame: &[u8]) -> Answer {
        self.host.clone().receive(frame, &mut [])
    }

    /// The run that it tells of a frame, given the right one; the frame itself counts.
    fn spoilt_run(&self, before: &Host, number: u16, run: u8) -> u8 {
        let next = number.wrapping_add(1);
        let up_to = |most: usize| {
            let mut numbers = (0..most as u16).map(|step| number.wrapping_add(step));
            let end = numbers.position(|number| !self.host.is_behind_or_accepted(number));
            end.unwrap_or(most) as u8
        };
        let marked = (0..LONGEST_RUN as u16).map(|step| number.wrapping_add(step));
        let marked = marked.take_while(|number| self.host.is_accepted(*number));
        match self.fault {
            Some(Fault::HostRunOneTooLong) => run.saturating_add(1),
            Some(Fault::HostRunBeforeEffect) => before.run(number).max(1),
            Some(Fault::HostRunOfMarksOnly) => (marked.count() as u8).max(1),
            Some(Fault::HostRunUpTo256) => up_to(256),
            Some(Fault::HostRunUpTo64) => up_to(64),
            Some(Fault::HostRunFromNext) => self.host.run(next),
            _ => run,
        }
    }

    /// The answer as its acknowledgement tells it.
    fn acknowledged(&self, mut answer: Answer) -> Answer {
        if let Answer::Accepted { number, run, .. } | Answer::Again { number, run } = &mut answer {
            match self.fault {
                Some(Fault::HostAcknowledgesOneMore) => *run = run.saturating_add(1),
                Some(Fault::HostAcknowledgesFromNext) => *number = number.wrapping_add(1),
                Some(Fault::HostAcknowledgesAlone) => *run = 1,
                _ => {}
            }
        }
        answer
    }

    /// Lets the messages before a refused one be written, and forgets them.
    fn write_good_messages(&self, frame: &[u8], place: usize, memory: &mut [u8]) {
        let Some((_, messages)) = self.read(frame) else {
            return;
        };
        let mut trial = self.host.clone();
        for message in &messages[..place] {
            let taken = trial.take(message, memory);
            taken.expect("those before the refused one are good");
        }
    }

    /// The frame as it looks to a host that adds in 32 bits: an address whose sum goes
    /// round is as good as 0. What would be written there is not in memory.
    fn without_long_sums(&self, frame: &[u8], memory: usize) -> Option<Vec<u8>> {
        let (number, mut messages) = self.read(frame)?;
        let fits = |address: u32, length: usize| {
            let sum = u64::from(address) + length as u64;
            sum > u64::from(u32::MAX) && (sum as u32) as usize <= memory
        };
        let mut any = false;
        for message in &mut messages {
            if fits(message.data_address, message.data.len()) {
                (message.data_address, any) = (0, true);
            }
            if fits(message.completion_address, 4) {
                (message.completion_address, any) = (0, true);
            }
        }
        let (own, peer) = self.host.ids();
        any.then(|| wire::write_frame(own, peer, number, &messages))
    }
}

impl HostEnd for FaultyHost {
    fn receive(&mut self, frame: &[u8], memory: &mut [u8]) -> Answer {
        if let Some(answer) = self.hasty_answer(frame) {
            return answer;
        }
        if self.fault == Some(Fault::HostSumsIn32Bits)
            && let Some(frame) = self.without_long_sums(frame, memory.len())
        {
            return self.host.receive(&frame, &mut memory.to_vec());
        }
        let before = memory.to_vec();
        let host_before = self.host.clone();
        let mut answer = self.host.receive(frame, memory);
        if let Answer::Accepted { number, run, .. } | Answer::Again { number, run } = &mut answer {
            *run = self.spoilt_run(&host_before, *number, *run);
        }
        match (self.fault, &mut answer) {
            (Some(Fault::HostWritesFirstOnly), Answer::Accepted { .. }) if self.accepted > 0 => {
                memory.copy_from_slice(&before);
            }
            (Some(Fault::HostInventsMessages), Answer::Accepted { messages, .. }) => *messages += 1,
            (
                Some(Fault::HostInventsBytes),
                Answer::Accepted {
                    bytes, completed, ..
                },
            ) => *bytes += 4 * *completed,
            (Some(Fault::HostRepeatsAlone), Answer::Again { run, .. }) => *run = 1,
            (Some(Fault::HostWritesBeforeJudging), Answer::Refused { place, .. }) => {
                self.write_good_messages(frame, *place, memory);
            }
            (Some(Fault::HostSilentOnRepeats), Answer::Again { .. }) => {
                answer = Answer::NoMessages;
            }
            _ => {}
        }
        self.accepted += u64::from(matches!(answer, Answer::Accepted { .. }));
        answer
    }

    fn acknowledgement(&self, answer: Answer, next_number: u16) -> Option<[u8; FRAME_HEADER]> {
        match (self.fault, answer) {
            (Some(Fault::HostRepeatsUnacknowledged), Answer::Again { .. }) => None,
            _ => {
                let answer = self.acknowledged(answer);
                self.host.acknowledgement(answer, next_number)
            }
        }
    }

    fn host(&self) -> &Host {
        &self.host
    }

    fn put(&mut self, host: Host) {
        self.host = host.with_windows(self.host.windows());
    }
}
