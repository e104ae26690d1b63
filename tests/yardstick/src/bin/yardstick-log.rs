//! Reads a log from the standard input and prints its lines to the standard output.

use std::io::{stdin, stdout};
use std::process::ExitCode;

fn main() -> ExitCode {
    match yardstick::read_log(stdin().lock(), stdout().lock()) {
        Ok(()) => ExitCode::SUCCESS,
        Err(error) => {
            eprintln!("yardstick-log: {error}");
            ExitCode::FAILURE
        }
    }
}
