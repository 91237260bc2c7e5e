//! The list of a round at a bound, and the least bound that has one.

use crate::matching::{Crowd, place};
use crate::penalty::{CHANNELS, Penalty, Question, TOP};
use crate::readings::Readings;
use crate::windows::{Moment, Window, fill};

/// Why no list is within a bound.
#[derive(Clone, Copy, Debug)]
pub enum Block {
    Blocked(Moment),
    Shut(Window),
    Crowded(Crowd),
}

/// Makes the lists of a round under a penalty.
pub struct Sequencer<'a, P> {
    penalty: P,
    readings: &'a Readings,
    windows: Vec<Window>,
    /// The channel of each slot.
    list: Vec<u8>,
}

impl<'a, P: Penalty> Sequencer<'a, P> {
    pub fn new(penalty: P, readings: &'a Readings) -> Sequencer<'a, P> {
        let slots = usize::from(readings.slots());
        Sequencer {
            penalty,
            readings,
            windows: Vec::with_capacity(slots),
            list: vec![0; slots],
        }
    }

    /// Makes the list at a bound, and answers its largest cost; or why there is none.
    pub fn list(&mut self, bound: u64) -> Result<u64, Block> {
        self.sequence(bound)?;
        Ok(self.largest_cost())
    }

    /// Makes the list at the least bound that has one, and answers the bound and why no list is
    /// within the one below it, nothing where it is 0; or why there is no list below TOP. The
    /// search is by halves.
    pub fn best(&mut self) -> Result<(u64, Option<Block>), Block> {
        let mut high = self.list(TOP - 1)?;
        // No list is within a bound below `low`; `high` is the largest cost of a list.
        let mut low = 0;
        let mut below = None;
        while low < high {
            let bound = (low + high - 1) / 2;
            match self.list(bound) {
                Ok(cost) => high = cost,
                Err(block) => {
                    low = bound + 1;
                    below = Some(block);
                }
            }
        }
        // The list that was made last may be that of another bound.
        self.sequence(high)?;
        Ok((high, below))
    }

    /// The windows of the readings in the order of their slots, after a list.
    pub fn rows(&self) -> Vec<Window> {
        let mut rows = self.windows.clone();
        rows.sort_unstable_by_key(|window| window.slot);
        rows
    }

    /// The list of the rules at a bound: the windows, a slot for each, and the channels by slot.
    fn sequence(&mut self, bound: u64) -> Result<(), Block> {
        fill(&self.penalty, self.readings, bound, &mut self.windows).map_err(Block::Blocked)?;
        if let Some(&shut) = self
            .windows
            .iter()
            .find(|window| window.latest < window.earliest)
        {
            return Err(Block::Shut(shut));
        }
        place(&mut self.windows).map_err(Block::Crowded)?;
        for window in &self.windows {
            self.list[usize::from(window.slot) - 1] = window.channel;
        }
        Ok(())
    }

    /// The largest cost of the list, over all its moments.
    fn largest_cost(&self) -> u64 {
        let mut counts = [0; CHANNELS];
        let mut largest = self.largest_after(0, &counts);
        for (slot, &channel) in (1..).zip(&self.list) {
            counts[usize::from(channel)] += 1;
            largest = largest.max(self.largest_after(slot, &counts));
        }
        largest
    }

    /// The largest cost of the counts after a slot.
    fn largest_after(&self, slot: u16, counts: &[u16; CHANNELS]) -> u64 {
        let slots = self.readings.slots();
        let cost = |(channel, readings)| {
            let count = counts[usize::from(channel)];
            self.penalty.cost(Question {
                slots,
                channel,
                readings,
                count,
                slot,
            })
        };
        self.readings.channels().map(cost).max().unwrap_or(0)
    }
}
