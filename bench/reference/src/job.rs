//! Job files: what a job holds between its records, and what each record is answered with.

use crate::fault::Fault;
use crate::penalty::{CHANNELS, LARGEST_THRESHOLD, LARGEST_WEIGHT, Layers, Penalty, TOP};
use crate::readings::Readings;
use crate::record::Record;
use crate::sequencing::{Block, Sequencer};
use crate::windows::Window;

/// The most bytes of a job file.
pub const JOB_BYTES: usize = 4_096;

/// What a record is answered with; the rows of a list are its windows in the order of their slots.
#[derive(Debug)]
pub enum Answer {
    Done,
    Within {
        bound: u64,
        largest: u64,
        rows: Vec<Window>,
    },
    Over {
        bound: u64,
        block: Block,
    },
    Least {
        least: u64,
        figure: u64,
        rows: Vec<Window>,
        below: Option<Block>,
    },
    NoLeast(Block),
}

/// What a job holds between two records.
pub struct Job<B> {
    bottom: B,
    layers: Layers,
    readings: Readings,
}

impl<B: Penalty + Copy> Job<B> {
    /// No channel, and the layers as they are until they are set.
    pub fn new(bottom: B) -> Job<B> {
        Job {
            bottom,
            layers: Layers::new(),
            readings: Readings::new(),
        }
    }

    /// Does what a record asks for.
    pub fn take(&mut self, record: Record) -> Result<Answer, Fault> {
        match record {
            Record::Add { channel, readings } => self.readings.add(channel, readings)?,
            Record::Weight { channel, weight } => self.set_weight(channel, weight)?,
            Record::Tolerance(tolerance) => self.layers.tolerance = threshold(tolerance)?,
            Record::Limit(limit) => self.layers.limit = threshold(limit)?,
            Record::List { bound } => return self.list(bound),
            Record::Best => return self.best(),
        }
        Ok(Answer::Done)
    }

    fn set_weight(&mut self, channel: u8, weight: u16) -> Result<(), Fault> {
        if usize::from(channel) >= CHANNELS {
            return Err(Fault::ChannelAboveLimit);
        }
        if weight > LARGEST_WEIGHT {
            return Err(Fault::WeightAboveLimit);
        }
        self.layers.weights[usize::from(channel)] = weight;
        Ok(())
    }

    fn list(&self, bound: u64) -> Result<Answer, Fault> {
        let mut sequencer = self.sequencer()?;
        if bound >= TOP {
            return Err(Fault::BoundAboveLimit);
        }
        Ok(match sequencer.list(bound) {
            Ok(largest) => Answer::Within {
                bound,
                largest,
                rows: sequencer.rows(),
            },
            Err(block) => Answer::Over { bound, block },
        })
    }

    fn best(&self) -> Result<Answer, Fault> {
        let mut sequencer = self.sequencer()?;
        Ok(match sequencer.best() {
            Ok((least, below)) => {
                let figure = (100 * least).div_ceil(u64::from(self.readings.slots()));
                Answer::Least {
                    least,
                    figure,
                    rows: sequencer.rows(),
                    below,
                }
            }
            Err(block) => Answer::NoLeast(block),
        })
    }

    /// What makes lists of the channels, unless there is none.
    fn sequencer(&self) -> Result<Sequencer<'_, impl Penalty>, Fault> {
        if self.readings.slots() == 0 {
            return Err(Fault::NoChannel);
        }
        Ok(Sequencer::new(
            self.layers.over(self.bottom),
            &self.readings,
        ))
    }
}

/// A tolerance or a limit.
fn threshold(value: u32) -> Result<u32, Fault> {
    if value > LARGEST_THRESHOLD {
        Err(Fault::ThresholdAboveLimit)
    } else {
        Ok(value)
    }
}
