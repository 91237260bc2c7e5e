//! The listing of a job: what its records are answered with, in lines of text.

use std::fmt;
use std::io::{self, Write};

use crate::fault::Fault;
use crate::job::{Answer, JOB_BYTES, Job};
use crate::penalty::Penalty;
use crate::record::Record;
use crate::sequencing::Block;
use crate::windows::Window;

/// Writes the listing of a job file over a bottom.
pub fn print_job<B: Penalty + Copy, W: Write>(
    bottom: B,
    file: &[u8],
    out: &mut W,
) -> io::Result<()> {
    if file.len() > JOB_BYTES {
        return print_fault(Fault::TooLong, 0, out);
    }
    let mut job = Job::new(bottom);
    let mut rest = file;
    while let [kind, body @ ..] = rest {
        let offset = file.len() - rest.len();
        let taken = Record::split_first(*kind, body);
        match taken.and_then(|(record, after)| Ok((job.take(record)?, after))) {
            Ok((answer, after)) => {
                print_answer(&answer, out)?;
                rest = after;
            }
            Err(fault) => return print_fault(fault, offset, out),
        }
    }
    Ok(())
}

fn print_fault<W: Write>(fault: Fault, offset: usize, out: &mut W) -> io::Result<()> {
    writeln!(out, "FAULT {} {} {offset}", fault.number(), fault.layer())
}

fn print_answer<W: Write>(answer: &Answer, out: &mut W) -> io::Result<()> {
    match answer {
        Answer::Done => Ok(()),
        Answer::Within {
            bound,
            largest,
            rows,
        } => {
            writeln!(out, "WITHIN {bound} LARGEST {largest}")?;
            print_rows(rows, out)
        }
        Answer::Over { bound, block } => writeln!(out, "OVER {bound}\n{block}"),
        Answer::Least {
            least,
            figure,
            rows,
            below,
        } => {
            writeln!(out, "LEAST {least} FIGURE {figure}")?;
            print_rows(rows, out)?;
            match below {
                Some(block) => writeln!(out, "BELOW {block}"),
                None => writeln!(out, "BELOW NOTHING"),
            }
        }
        Answer::NoLeast(block) => writeln!(out, "NONE\n{block}"),
    }
}

fn print_rows<W: Write>(rows: &[Window], out: &mut W) -> io::Result<()> {
    for Window {
        channel,
        reading,
        earliest,
        latest,
        slot,
    } in rows
    {
        writeln!(out, "{channel} {reading} {earliest} {latest} {slot}")?;
    }
    Ok(())
}

impl fmt::Display for Block {
    fn fmt(&self, f: &mut fmt::Formatter<'_>) -> fmt::Result {
        match self {
            Block::Blocked(moment) => write!(f, "MOMENT {} {}", moment.slot, moment.channel),
            Block::Shut(w) => write!(
                f,
                "SHUT {} {} {} {}",
                w.channel, w.reading, w.earliest, w.latest
            ),
            Block::Crowded(crowd) => {
                write!(f, "CROWD {} {} {}", crowd.first, crowd.last, crowd.number)
            }
        }
    }
}
