//! The program `even` again in plain Rust, by the same method and with nothing proved: what the
//! proved program is measured against.
//!
//! It reads a job file from standard input and prints its listing, over the absolute deviation;
//! with the argument `two-sided` over the two-sided bottom, as the program `twosided` does.

mod fault;
mod job;
mod listing;
mod matching;
mod penalty;
mod readings;
mod record;
mod sequencing;
mod two_sided;
mod windows;

use std::env;
use std::io::{self, BufWriter, Read, Write};

use job::JOB_BYTES;
use listing::print_job;
use penalty::AbsoluteDeviation;
use two_sided::TwoSided;

fn main() -> io::Result<()> {
    let mut file = Vec::new();
    // One byte more than a job file may have, so that a longer one is seen to be too long.
    io::stdin()
        .lock()
        .take(JOB_BYTES as u64 + 1)
        .read_to_end(&mut file)?;
    let mut out = BufWriter::new(io::stdout().lock());
    if env::args().nth(1).as_deref() == Some("two-sided") {
        print_job(TwoSided::new(), &file, &mut out)?;
    } else {
        print_job(AbsoluteDeviation, &file, &mut out)?;
    }
    out.flush()
}
