//! The programs do what the library does: one makes logs, the other reads them.

use std::io::Write;
use std::process::{Command, Output, Stdio};
use std::thread;

use yardstick::make_log::{bench_log, every_log, hour_log};
use yardstick::read_log;

fn make_log(arguments: &[&str]) -> Output {
    let mut command = Command::new(env!("CARGO_BIN_EXE_make-log"));
    command.args(arguments).output().expect("the maker of logs runs")
}

/// The log reader with a log as its standard input.
fn yardstick_log(log: Vec<u8>) -> Output {
    let mut reader = Command::new(env!("CARGO_BIN_EXE_yardstick-log"))
        .stdin(Stdio::piped())
        .stdout(Stdio::piped())
        .spawn()
        .expect("the log reader runs");
    let mut input = reader.stdin.take().expect("its input is a pipe");
    let writer = thread::spawn(move || input.write_all(&log));
    let output = reader.wait_with_output().expect("the log reader ends");
    let written = writer.join().expect("the writer ends");
    written.expect("the log reader takes all of its input");
    output
}

#[test]
fn logs_are_made_and_read() {
    let [mut hour, mut bench, mut every] = [Vec::new(), Vec::new(), Vec::new()];
    hour_log(&mut hour).expect("writing to memory");
    bench_log(21, 3000, &mut bench).expect("writing to memory");
    every_log(22, 3000, &mut every).expect("writing to memory");
    // A short last piece too.
    let pieces = every[..every.len() - 1].to_vec();
    for (arguments, log) in [
        (&["hour"][..], &hour),
        (&["bench", "21", "3000"], &bench),
        (&["every", "22", "3000"], &every),
    ] {
        let made = make_log(arguments);
        assert!(made.status.success(), "{arguments:?}");
        assert!(made.stdout == *log, "{arguments:?}");
    }
    for log in [hour, bench, every, pieces, Vec::new()] {
        let mut lines = Vec::new();
        read_log(&log[..], &mut lines).expect("reading from memory");
        let output = yardstick_log(log);
        assert!(output.status.success());
        assert!(output.stdout == lines, "other lines than the library's");
    }
}

#[test]
fn wrong_arguments() {
    for arguments in [
        &[][..],
        &["hour", "1"],
        &["hour", "1", "2"],
        &["bench"],
        &["bench", "1"],
        &["bench", "1", "many"],
        &["bench", "-1", "2"],
        &["other", "1", "2"],
        &["every", "1", "2", "3"],
    ] {
        let output = make_log(arguments);
        assert!(!output.status.success(), "{arguments:?}");
        assert!(output.stdout.is_empty(), "{arguments:?}");
        assert!(!output.stderr.is_empty(), "{arguments:?}");
    }
}
