//! Logs to try log readers with. Equal seeds give equal logs.

mod bench;
mod devices;
mod every;
mod hour;
mod opening;

use std::io::{self, BufWriter, Write};

use crate::log::LOG_RECORD;
use bench::Bench;
use every::Every;
use hour::hour;

/// Writes a log as a bench makes it: a hub with motors and sensors whose modes change now and then, and one of which
/// sends by lists at times. Each record carries the number of the running experiment. In a log of a thousand records or
/// more, at least half are accepted 45s.
pub fn bench_log(seed: u64, records: u64, output: impl Write) -> io::Result<()> {
    let mut bench = Bench::new(seed);
    write_log(records, output, || bench.next_record())
}

/// Writes a log that has every form and every refusal that a log can show, if it has a hundred records or more.
pub fn every_log(seed: u64, records: u64, output: impl Write) -> io::Result<()> {
    let mut every = Every::new(seed);
    write_log(records, output, || every.next_record())
}

/// Writes the log of an hour at a bench, always the same. It shows every state of a value, three experiments, and
/// refusals that a bench gives.
pub fn hour_log(mut output: impl Write) -> io::Result<()> {
    output.write_all(hour().as_flattened())?;
    output.flush()
}

fn write_log(records: u64, output: impl Write, mut next: impl FnMut() -> [u8; LOG_RECORD]) -> io::Result<()> {
    let mut output = BufWriter::with_capacity(1 << 17, output);
    for _ in 0..records {
        output.write_all(&next())?;
    }
    output.flush()
}
