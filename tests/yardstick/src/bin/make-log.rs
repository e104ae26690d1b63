//! Writes a log to the standard output: `make-log hour` an hour at a bench, always the same, `make-log bench SEED RECORDS`
//! as a bench makes it, `make-log every SEED RECORDS` with every form and every refusal that a log can show.

use std::env;
use std::io::{self, stdout};
use std::process::ExitCode;

use yardstick::make_log::{bench_log, every_log, hour_log};

const USAGE: &str = "make-log hour\nmake-log bench|every SEED RECORDS";

fn main() -> ExitCode {
    let arguments: Vec<String> = env::args().skip(1).collect();
    match make(&arguments) {
        Some(Ok(())) => ExitCode::SUCCESS,
        Some(Err(error)) => {
            eprintln!("make-log: {error}");
            ExitCode::FAILURE
        }
        None => {
            eprintln!("{USAGE}");
            ExitCode::FAILURE
        }
    }
}

/// Makes the log, unless the arguments are others than in the usage.
fn make(arguments: &[String]) -> Option<io::Result<()>> {
    let [sort, numbers @ ..] = arguments else {
        return None;
    };
    let [seed, records] = numbers else {
        return (sort == "hour" && numbers.is_empty()).then(|| hour_log(stdout().lock()));
    };
    let seed = seed.parse().ok()?;
    let records = records.parse().ok()?;
    match sort.as_str() {
        "bench" => Some(bench_log(seed, records, stdout().lock())),
        "every" => Some(every_log(seed, records, stdout().lock())),
        _ => None,
    }
}
