//! The records of a job file, taken apart.

use crate::fault::Fault;

/// What a job file asks for, in one record.
#[derive(Clone, Copy, Debug)]
pub enum Record {
    Add { channel: u8, readings: u16 },
    Weight { channel: u8, weight: u16 },
    Tolerance(u32),
    Limit(u32),
    List { bound: u64 },
    Best,
}

impl Record {
    /// The record of a kind that a body begins with, and the bytes after it.
    pub fn split_first(kind: u8, body: &[u8]) -> Result<(Record, &[u8]), Fault> {
        match kind {
            0x43 => {
                let (channel, readings, rest) = split_channel(body)?;
                Ok((Record::Add { channel, readings }, rest))
            }
            0x57 => {
                let (channel, weight, rest) = split_channel(body)?;
                Ok((Record::Weight { channel, weight }, rest))
            }
            0x54 => {
                let (&bytes, rest) = split(body)?;
                Ok((Record::Tolerance(u32::from_be_bytes(bytes)), rest))
            }
            0x45 => {
                let (&bytes, rest) = split(body)?;
                Ok((Record::Limit(u32::from_be_bytes(bytes)), rest))
            }
            0x4C => {
                let (&bytes, rest) = split(body)?;
                Ok((
                    Record::List {
                        bound: u64::from_be_bytes(bytes),
                    },
                    rest,
                ))
            }
            0x42 => Ok((Record::Best, body)),
            _ => Err(Fault::UnknownKind),
        }
    }
}

/// A channel and a number of two bytes that a body begins with, and the bytes after them.
fn split_channel(body: &[u8]) -> Result<(u8, u16, &[u8]), Fault> {
    let (&[channel, high, low], rest) = split(body)?;
    Ok((channel, u16::from_be_bytes([high, low]), rest))
}

/// The first bytes of a body, and those after them.
fn split<const N: usize>(body: &[u8]) -> Result<(&[u8; N], &[u8]), Fault> {
    body.split_first_chunk().ok_or(Fault::CutShort)
}
