//! Slots for the windows by Glover's rule: slot after slot, the ready reading that is due first.

use std::cmp::Reverse;
use std::collections::BinaryHeap;

use crate::penalty::CHANNELS;
use crate::windows::Window;

/// Slots that are crowded: more windows lie wholly inside them than there are slots.
#[derive(Clone, Copy, Debug)]
pub struct Crowd {
    pub first: u16,
    pub last: u16,
    pub number: usize,
}

/// A round while its slots are filled. Of each channel at most one reading is ready, its next one:
/// neither end of its window is after that of a later reading of the channel.
struct Round<'a> {
    windows: &'a mut [Window],
    /// The place of each channel's next reading, where it is not ready yet.
    waiting: [Option<u16>; CHANNELS],
    /// The ready readings by their latest slot and then their place.
    ready: BinaryHeap<Reverse<(u16, u16)>>,
}

/// Gives every reading a slot of its window, or shows slots that are too crowded for that. The
/// windows are open, and stand by channel and then reading.
pub fn place(windows: &mut [Window]) -> Result<(), Crowd> {
    let mut round = Round::new(windows);
    for slot in 1..=round.windows.len() as u16 {
        round.fill(slot)?;
    }
    Ok(())
}

impl<'a> Round<'a> {
    fn new(windows: &'a mut [Window]) -> Round<'a> {
        let mut waiting = [None; CHANNELS];
        for (place, window) in (0..).zip(windows.iter_mut()) {
            window.slot = 0;
            waiting[usize::from(window.channel)].get_or_insert(place);
        }
        Round {
            windows,
            waiting,
            ready: BinaryHeap::with_capacity(CHANNELS),
        }
    }

    /// Gives a slot to the reading that is due first.
    fn fill(&mut self, slot: u16) -> Result<(), Crowd> {
        self.admit(slot);
        let Some(Reverse((latest, place))) = self.ready.pop() else {
            return Err(self.crowd(slot + 1, self.windows.len() as u16));
        };
        if latest < slot {
            return Err(self.crowd(self.last_movable(latest) + 1, latest));
        }
        let window = &mut self.windows[usize::from(place)];
        window.slot = slot;
        let channel = window.channel;
        let next = self.windows.get(usize::from(place) + 1);
        self.waiting[usize::from(channel)] = next
            .filter(|next| next.channel == channel)
            .map(|_| place + 1);
        Ok(())
    }

    /// Makes the next reading of every channel ready whose earliest slot has come.
    fn admit(&mut self, slot: u16) {
        for waiting in &mut self.waiting {
            if let Some(place) = *waiting {
                let window = &self.windows[usize::from(place)];
                if window.earliest <= slot {
                    self.ready.push(Reverse((window.latest, place)));
                    *waiting = None;
                }
            }
        }
    }

    /// The last slot up to `latest` whose reading could also stand after `latest`, 0 where there is none.
    fn last_movable(&self, latest: u16) -> u16 {
        let movable = self
            .windows
            .iter()
            .filter(|window| window.latest > latest && window.slot <= latest);
        movable.map(|window| window.slot).max().unwrap_or(0)
    }

    /// The slots `first` to `last`, with the number of windows that lie wholly inside.
    fn crowd(&self, first: u16, last: u16) -> Crowd {
        let inside = |window: &&Window| first <= window.earliest && window.latest <= last;
        Crowd {
            first,
            last,
            number: self.windows.iter().filter(inside).count(),
        }
    }
}
