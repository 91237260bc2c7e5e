//! The windows of the readings at a bound, or the first blocked moment.

use crate::penalty::{Penalty, Question};
use crate::readings::Readings;

/// One reading of a channel: the slots that it may stand in, and the slot that it stands in.
#[derive(Clone, Copy, Debug)]
pub struct Window {
    pub channel: u8,
    pub reading: u16,
    pub earliest: u16,
    pub latest: u16,
    pub slot: u16,
}

/// A channel after a slot, 0 before the first.
#[derive(Clone, Copy, Debug, PartialEq, Eq, PartialOrd, Ord)]
pub struct Moment {
    pub slot: u16,
    pub channel: u8,
}

/// The counts of one channel, at a bound.
struct Counts<'a, P> {
    penalty: &'a P,
    bound: u64,
    slots: u16,
    channel: u8,
    readings: u16,
}

/// The windows of all readings at a bound, by channel and then reading, put into `windows`; or the
/// first blocked moment.
pub fn fill<P: Penalty>(
    penalty: &P,
    readings: &Readings,
    bound: u64,
    windows: &mut Vec<Window>,
) -> Result<(), Moment> {
    windows.clear();
    let slots = readings.slots();
    let mut blocked: Option<Moment> = None;
    for (channel, readings) in readings.channels() {
        let counts = Counts {
            penalty,
            bound,
            slots,
            channel,
            readings,
        };
        match counts.limits() {
            Ok((fewest, most)) => windows.extend(counts.windows(&fewest, &most)),
            Err(slot) => {
                let moment = Moment { slot, channel };
                blocked = Some(blocked.map_or(moment, |before| before.min(moment)));
            }
        }
    }
    blocked.map_or(Ok(()), Err)
}

impl<P: Penalty> Counts<'_, P> {
    /// Whether a count is allowed after a slot.
    fn allows(&self, slot: u16, count: u16) -> bool {
        let question = Question {
            slots: self.slots,
            channel: self.channel,
            readings: self.readings,
            count,
            slot,
        };
        self.penalty.cost(question) <= self.bound
    }

    /// For each slot how many readings are needed by it and how many may stand by it, or the first
    /// slot after which the channel is blocked.
    fn limits(&self) -> Result<(Vec<u16>, Vec<u16>), u16> {
        let fewest = self.fewest()?;
        Ok((fewest, self.most()))
    }

    /// How many readings are needed by each slot: going up, the count before is asked about first.
    fn fewest(&self) -> Result<Vec<u16>, u16> {
        let mut fewest = Vec::with_capacity(usize::from(self.slots) + 1);
        let mut count = 0;
        for slot in 0..=self.slots {
            if !self.allows(slot, count) {
                let above = (count + 1..=self.readings).find(|&above| self.allows(slot, above));
                match above {
                    Some(above) => count = above,
                    // Fewer are allowed again: what was needed before is needed still.
                    None if (0..count).rev().any(|below| self.allows(slot, below)) => {}
                    None => return Err(slot),
                }
            }
            fewest.push(count);
        }
        Ok(fewest)
    }

    /// How many readings may stand by each slot, where none is blocked: going down, the count after
    /// is asked about first.
    fn most(&self) -> Vec<u16> {
        let mut most = vec![0; usize::from(self.slots) + 1];
        let mut count = self.readings;
        for slot in (0..=self.slots).rev() {
            if !self.allows(slot, count) {
                count = (0..count)
                    .rev()
                    .find(|&below| self.allows(slot, below))
                    .unwrap_or(count);
            }
            most[usize::from(slot)] = count;
        }
        most
    }

    /// The windows of the channel's readings, without slots.
    fn windows(&self, fewest: &[u16], most: &[u16]) -> impl Iterator<Item = Window> {
        (1..=self.readings).map(move |reading| {
            let forbidden = most.partition_point(|&count| count < reading) as u16;
            let not_needed = fewest.partition_point(|&count| count < reading) as u16;
            Window {
                channel: self.channel,
                reading,
                earliest: forbidden.max(1),
                latest: not_needed.min(self.slots),
                slot: 0,
            }
        })
    }
}
