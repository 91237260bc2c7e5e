//! The faults that stop a job, with their numbers and layers.

/// Why a job is stopped.
#[derive(Clone, Copy, Debug)]
pub enum Fault {
    ChannelAboveLimit,
    ReadingsOutOfRange,
    Present,
    TotalAboveLimit,
    NoChannel,
    BoundAboveLimit,
    WeightAboveLimit,
    ThresholdAboveLimit,
    UnknownKind,
    CutShort,
    TooLong,
}

impl Fault {
    /// The number of the fault.
    pub fn number(self) -> u8 {
        match self {
            Fault::ChannelAboveLimit => 1,
            Fault::ReadingsOutOfRange => 2,
            Fault::Present => 3,
            Fault::TotalAboveLimit => 5,
            Fault::NoChannel => 6,
            Fault::BoundAboveLimit => 7,
            Fault::WeightAboveLimit => 9,
            Fault::ThresholdAboveLimit => 10,
            Fault::UnknownKind => 11,
            Fault::CutShort => 12,
            Fault::TooLong => 13,
        }
    }

    /// The layer of the fault: 1 the file, 2 a record, 3 a rule or the roster.
    pub fn layer(self) -> u8 {
        match self {
            Fault::TooLong => 1,
            Fault::UnknownKind | Fault::CutShort => 2,
            _ => 3,
        }
    }
}
