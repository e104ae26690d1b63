//! Reads a log block by block, and prints a line for each record and the totals.

#[path = "../include/castanetash.rs"]
mod castanetash;

use std::env;
use std::error::Error;
use std::fs::File;
use std::io::{self, ErrorKind, Read, Write};
use std::process::ExitCode;

use castanetash::{refused, totals, RECORD, TABLE_CELLS, TOTALS_CELLS};

fn print_log(mut log: impl Read, mut out: impl Write) -> Result<(), Box<dyn Error>> {
    let (mut table, mut totals) = ([0; TABLE_CELLS], [0; TOTALS_CELLS]);
    let (mut bytes, mut text) = (vec![0; 1 << 16], vec![0; 1 << 13]);
    // How many bytes of the log are there, but not worked through yet.
    let mut held = 0;
    castanetash::empty(&mut table)?;
    loop {
        match log.read(&mut bytes[held..]) {
            Ok(0) => break,
            Ok(count) => held += count,
            Err(error) if error.kind() == ErrorKind::Interrupted => continue,
            Err(error) => return Err(error.into()),
        }
        let mut taken = 0;
        while held - taken >= RECORD {
            let before = totals[totals::RECORDS];
            let length = castanetash::read_block(&mut table, &mut totals, &bytes[taken..held], &mut text)?;
            out.write_all(&text[..length])?;
            taken += (totals[totals::RECORDS] - before) as usize * RECORD;
        }
        bytes.copy_within(taken..held, 0);
        held -= taken;
    }
    // A last piece, too short for a record.
    if held > 0 {
        totals[totals::RECORDS] += 1;
        totals[totals::REFUSED] += 1;
        writeln!(out, "{} {}", totals[totals::RECORDS], refused::LOG_RECORD)?;
    }
    let (records, refused) = (totals[totals::RECORDS], totals[totals::REFUSED]);
    writeln!(out, "total {records} refused {refused}")?;
    out.flush()?;
    Ok(())
}

fn main() -> ExitCode {
    let arguments: Vec<_> = env::args_os().skip(1).collect();
    let [path] = &arguments[..] else {
        eprintln!("usage: read_log FILE");
        return ExitCode::FAILURE;
    };
    let printed = File::open(path)
        .map_err(Box::from)
        .and_then(|file| print_log(file, io::stdout().lock()));
    match printed {
        Ok(()) => ExitCode::SUCCESS,
        Err(error) => {
            eprintln!("{}: {error}", path.display());
            ExitCode::FAILURE
        }
    }
}
