//! The roster's table: how many readings each channel has in a round.

use crate::fault::Fault;
use crate::penalty::{CHANNELS, LIMIT};

/// The readings of each channel number, 0 where no channel is, and their sum, which is the number of slots.
#[derive(Clone, Debug)]
pub struct Readings {
    by_channel: [u16; CHANNELS],
    slots: u16,
}

impl Readings {
    /// A table without a channel.
    pub fn new() -> Readings {
        Readings {
            by_channel: [0; CHANNELS],
            slots: 0,
        }
    }

    /// Adds a channel that is not there.
    pub fn add(&mut self, channel: u8, readings: u16) -> Result<(), Fault> {
        let entry = self
            .by_channel
            .get_mut(usize::from(channel))
            .ok_or(Fault::ChannelAboveLimit)?;
        if readings == 0 || readings > LIMIT {
            return Err(Fault::ReadingsOutOfRange);
        }
        if *entry > 0 {
            return Err(Fault::Present);
        }
        if readings > LIMIT - self.slots {
            return Err(Fault::TotalAboveLimit);
        }
        *entry = readings;
        self.slots += readings;
        Ok(())
    }

    /// How many slots the round has.
    pub fn slots(&self) -> u16 {
        self.slots
    }

    /// The channels with their readings, in the order of their numbers.
    pub fn channels(&self) -> impl Iterator<Item = (u8, u16)> + '_ {
        (0..)
            .zip(self.by_channel.iter().copied())
            .filter(|&(_, readings)| readings > 0)
    }
}
