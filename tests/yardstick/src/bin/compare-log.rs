//! Runs two log readers over one log and compares their time: `compare-log LOG RUNS FIRST SECOND`. They take turns, their
//! lines have to be the same, and the ratio of the first's median to the second's is printed.

use std::env;
use std::fs::File;
use std::io;
use std::process::{Command, ExitCode, Stdio};
use std::time::{Duration, Instant};

const USAGE: &str = "compare-log LOG RUNS FIRST SECOND";

fn main() -> ExitCode {
    let arguments: Vec<String> = env::args().skip(1).collect();
    let [log, runs, first, second] = &arguments[..] else {
        eprintln!("{USAGE}");
        return ExitCode::FAILURE;
    };
    let Ok(runs) = runs.parse() else {
        eprintln!("{USAGE}");
        return ExitCode::FAILURE;
    };
    match compare(log, runs, [first, second]) {
        Ok(()) => ExitCode::SUCCESS,
        Err(error) => {
            eprintln!("compare-log: {error}");
            ExitCode::FAILURE
        }
    }
}

fn compare(log: &str, runs: usize, programs: [&String; 2]) -> io::Result<()> {
    let [first, second] = [lines(programs[0], log)?, lines(programs[1], log)?];
    if first != second {
        return Err(io::Error::other("the lines differ"));
    }
    let mut times = [Vec::new(), Vec::new()];
    for _ in 0..runs.max(1) {
        for (program, times) in programs.iter().zip(&mut times) {
            times.push(time(program, log)?);
        }
    }
    let [first, second] = times.map(|mut times| {
        times.sort_unstable();
        (times[0], times[times.len() / 2])
    });
    println!("{}: least {:?}, median {:?}", programs[0], first.0, first.1);
    println!("{}: least {:?}, median {:?}", programs[1], second.0, second.1);
    println!("ratio of medians {:.2}", first.1.as_secs_f64() / second.1.as_secs_f64());
    Ok(())
}

/// What a program prints of the log.
fn lines(program: &str, log: &str) -> io::Result<Vec<u8>> {
    Ok(Command::new(program).stdin(File::open(log)?).output()?.stdout)
}

/// How long it takes, its lines thrown away.
fn time(program: &str, log: &str) -> io::Result<Duration> {
    let input = File::open(log)?;
    let start = Instant::now();
    let status = Command::new(program).stdin(input).stdout(Stdio::null()).status()?;
    let time = start.elapsed();
    if status.success() {
        Ok(time)
    } else {
        Err(io::Error::other(format!("{program}: {status}")))
    }
}
