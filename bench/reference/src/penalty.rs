//! What a moment of a scan list costs: the trait of all penalties, the absolute deviation, and the layers over a bottom.

/// How many channel numbers there are, 0 to 63.
pub const CHANNELS: usize = 64;

/// The most readings of a round, and so its most slots.
pub const LIMIT: u16 = 4_096;

/// The forbidden cost; no cost is larger.
pub const TOP: u64 = (1 << 40) - 1;

/// The largest weight.
pub const LARGEST_WEIGHT: u16 = 1_000;

/// The largest tolerance or limit, and the largest departure from the even share.
pub const LARGEST_THRESHOLD: u32 = 16_777_216;

/// The question what it costs that a channel stands `count` times in the first `slot` slots of a round.
#[derive(Clone, Copy, Debug)]
pub struct Question {
    pub slots: u16,
    pub channel: u8,
    pub readings: u16,
    pub count: u16,
    pub slot: u16,
}

impl Question {
    /// Whether the question lies in the domain of all penalties; outside it every penalty costs TOP.
    pub fn in_domain(&self) -> bool {
        (1..=LIMIT).contains(&self.slots)
            && usize::from(self.channel) < CHANNELS
            && (1..=LIMIT).contains(&self.readings)
            && self.count <= self.readings
            && self.slot <= self.slots
    }

    /// How far the count is ahead of its even share, times the slots.
    pub fn ahead(&self) -> i64 {
        i64::from(self.slots) * i64::from(self.count)
            - i64::from(self.slot) * i64::from(self.readings)
    }
}

/// Gives a cost to a channel's count after a slot.
pub trait Penalty {
    fn cost(&self, question: Question) -> u64;
}

/// The bottom that costs the size of the departure from the even share.
#[derive(Clone, Copy)]
pub struct AbsoluteDeviation;

impl Penalty for AbsoluteDeviation {
    fn cost(&self, question: Question) -> u64 {
        if !question.in_domain() {
            return TOP;
        }
        question.ahead().unsigned_abs()
    }
}

/// The layer that multiplies each cost below TOP by the weight of its channel, up to TOP - 1.
struct Weights<P> {
    below: P,
    by_channel: [u16; CHANNELS],
}

impl<P: Penalty> Penalty for Weights<P> {
    fn cost(&self, question: Question) -> u64 {
        match self.below.cost(question) {
            TOP => TOP,
            cost => (cost * u64::from(self.by_channel[usize::from(question.channel)])).min(TOP - 1),
        }
    }
}

/// The layer under which each cost below TOP falls by a tolerance, but not below 0.
struct Band<P> {
    below: P,
    tolerance: u32,
}

impl<P: Penalty> Penalty for Band<P> {
    fn cost(&self, question: Question) -> u64 {
        match self.below.cost(question) {
            TOP => TOP,
            cost => cost.saturating_sub(u64::from(self.tolerance)),
        }
    }
}

/// The layer that forbids each count that is ahead of its even share by more than a limit.
struct Stop<P> {
    below: P,
    limit: u32,
}

impl<P: Penalty> Penalty for Stop<P> {
    fn cost(&self, question: Question) -> u64 {
        if question.ahead() > i64::from(self.limit) {
            return TOP;
        }
        self.below.cost(question)
    }
}

/// The settings of the three layers.
#[derive(Clone, Copy)]
pub struct Layers {
    pub weights: [u16; CHANNELS],
    pub tolerance: u32,
    pub limit: u32,
}

impl Layers {
    /// Settings under which each cost is that of the bottom.
    pub fn new() -> Layers {
        Layers {
            weights: [1; CHANNELS],
            tolerance: 0,
            limit: LARGEST_THRESHOLD,
        }
    }

    /// The pile stop over band over weights over a bottom.
    pub fn over<B: Penalty>(&self, bottom: B) -> impl Penalty {
        let below = Weights {
            below: bottom,
            by_channel: self.weights,
        };
        let below = Band {
            below,
            tolerance: self.tolerance,
        };
        Stop {
            below,
            limit: self.limit,
        }
    }
}
