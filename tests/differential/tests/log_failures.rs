//! The product's log reader and what can go wrong around it: arguments, inputs that can't be read, outputs that can't be
//! written. What fails is told in one line on standard error that names it. The lines that were printed before stay,
//! and there are no totals.

use std::fs::{self, File, OpenOptions};
use std::io::{Read, Seek, Write};
use std::os::fd::OwnedFd;
use std::os::unix::net::UnixStream;
use std::path::{Path, PathBuf};
use std::process::{Command, Output};

use differential::{logread, logread_by_shell, root, run, wanted};
use yardstick::make_log::{bench_log, every_log};
use yardstick::LOG_RECORD;

/// A log whose last record is cut.
fn some_log() -> Vec<u8> {
    let mut log = Vec::new();
    every_log(71, 700, &mut log).expect("writing to memory");
    log.truncate(log.len() - 9);
    log
}

/// A file of the tests, with this content.
fn stored(name: &str, content: &[u8]) -> PathBuf {
    let path = Path::new(env!("CARGO_TARGET_TMPDIR")).join(name);
    fs::write(&path, content).expect("the file is stored");
    path
}

/// What the second program prints of the whole records of a log, without totals.
fn lines_only(log: &[u8]) -> Vec<u8> {
    let whole = &log[..log.len() - log.len() % LOG_RECORD];
    let text = String::from_utf8(wanted(whole)).expect("lines are text");
    let totals = text.rfind("total ").expect("totals");
    text.into_bytes()[..totals].to_vec()
}

/// A standard input that has these bytes and then, for the time being, no more: a read fails. The other end has to be
/// kept, as the input ends when it goes.
fn waiting(bytes: &[u8]) -> (UnixStream, OwnedFd) {
    let (mut here, there) = UnixStream::pair().expect("a pair of sockets");
    here.write_all(bytes).expect("the bytes have room in the socket");
    there.set_nonblocking(true).expect("a socket that doesn't wait");
    (here, there.into())
}

fn full() -> File {
    let full = OpenOptions::new().write(true).open("/dev/full");
    full.expect("a device that is always full")
}

/// It printed this and told nothing.
#[track_caller]
fn prints(output: &Output, printed: &[u8]) {
    assert_eq!(String::from_utf8_lossy(&output.stderr), "");
    assert!(output.stdout == printed, "other lines than wanted");
}

/// It told this in one line, and printed that and no totals.
#[track_caller]
fn tells(output: &Output, told: &str, printed: &[u8]) {
    assert_eq!(String::from_utf8_lossy(&output.stderr), format!("logread: {told}\n"));
    assert!(output.stdout == printed, "other lines than wanted");
    assert!(!String::from_utf8_lossy(&output.stdout).contains("total"));
}

/// Runs the log reader with a log as its standard input, of which it must not read anything.
#[track_caller]
fn without_reading(mut program: Command, name: &str) -> Output {
    let path = stored(name, &some_log());
    let mut input = File::open(path).expect("the log opens");
    // A copy of a descriptor has the same position.
    program.stdin(input.try_clone().expect("a copy of the descriptor"));
    let output = run(program);
    assert_eq!(input.stream_position().expect("a position"), 0, "the log was read");
    output
}

/// Runs the log reader with arguments, without reading its standard input.
#[track_caller]
fn with(arguments: &[&str], name: &str) -> Output {
    let mut program = logread();
    program.args(arguments);
    without_reading(program, name)
}

#[test]
fn a_file_prints_what_standard_input_prints() {
    let mut bench = Vec::new();
    bench_log(72, 2000, &mut bench).expect("writing to memory");
    for (number, log) in [some_log(), bench, vec![0; 135], Vec::new()].iter().enumerate() {
        let path = stored(&format!("some {number}.log"), log);
        let mut by_input = logread();
        by_input.stdin(File::open(&path).expect("the log opens"));
        prints(&run(by_input), &wanted(log));
        let mut by_name = logread();
        by_name.arg(&path);
        prints(&without_reading(by_name, &format!("beside {number}.log")), &wanted(log));
    }
}

#[test]
fn names_of_files() {
    let log = some_log();
    for name in ["-x", "total", "two words", "\u{fc}"] {
        let path = stored(name, &log);
        let mut program = logread();
        program.current_dir(path.parent().expect("its folder"));
        program.arg(format!("./{name}"));
        prints(&run(program), &wanted(&log));
    }
    // The longest path there is: 4,095 bytes.
    let path = stored("long.log", &log);
    let folder = path.parent().expect("its folder");
    let [folder, name] = [folder.to_str(), path.file_name().and_then(|it| it.to_str())].map(|it| it.expect("text"));
    let mut program = logread();
    program.arg(format!(
        "{folder}{}{name}",
        "/".repeat(4095 - folder.len() - name.len())
    ));
    prints(&run(program), &wanted(&log));
}

#[test]
fn files_that_cannot_be_read() {
    for (name, reason) in [
        ("no-such.log", "No such file or directory"),
        ("no-such-folder/bench.log", "No such file or directory"),
        ("README.md/bench.log", "Not a directory"),
        ("examples", "Is a directory"),
        (".", "Is a directory"),
        // It opens, and its first read fails.
        ("/proc/self/mem", "Input/output error"),
        // The empty name.
        ("", "No such file or directory"),
    ] {
        let mut program = logread();
        program.current_dir(root()).arg(name);
        let output = without_reading(program, "unread by name.log");
        tells(&output, &format!("{name}: {reason}"), b"");
    }
}

#[test]
fn names_that_are_too_long() {
    let name = "x".repeat(4096);
    let output = with(&[&name], "unread by length.log");
    tells(&output, &format!("{name}: File name too long"), b"");
    // Longer ones are not named.
    let output = with(&[&"x".repeat(4097)], "unread by length.log");
    tells(&output, "argument: File name too long", b"");
}

#[test]
fn help() {
    let output = with(&["--help"], "unread by help.log");
    assert_eq!(String::from_utf8_lossy(&output.stderr), "");
    let text = String::from_utf8(output.stdout).expect("the usage is text");
    assert!(text.starts_with("usage: logread [FILE]\n"));
    assert!(text.ends_with('\n'));
    assert!(text.is_ascii());
    assert!(text.lines().all(|line| line.len() < 80));
    for word in [
        "136 bytes",
        "port",
        "mode",
        "state",
        "experiment",
        "datasets",
        "totals",
        "incomplete",
    ] {
        assert!(text.contains(word), "nothing about {word}");
    }
    let mut program = logread();
    program.arg("--help").stdout(full());
    tells(&run(program), "standard output: No space left on device", b"");
}

#[test]
fn unknown_options() {
    for option in ["-x", "-", "--", "-h", "--hel", "--helpx", "--help=", "-\u{fc}"] {
        let output = with(&[option], "unread by option.log");
        tells(&output, &format!("no such option: {option}"), b"");
    }
}

#[test]
fn too_many_arguments() {
    let path = stored("one of two.log", &some_log());
    let log = path.to_str().expect("text");
    for arguments in [
        &[log, log][..],
        &[log, "other.log"],
        &["--help", log],
        &[log, "--help"],
        &["-x", "-y"],
        &[log, ""],
        &["", ""],
        &[log, "second", "third"],
    ] {
        let output = with(arguments, "unread by arguments.log");
        let last = arguments.last().expect("an argument");
        tells(&output, &format!("one argument too many: {last}"), b"");
    }
}

#[test]
fn input_is_a_folder() {
    let mut program = logread();
    program.stdin(File::open(root()).expect("a folder opens"));
    tells(&run(program), "standard input: Is a directory", b"");
}

#[test]
fn closed_input() {
    let output = run(logread_by_shell(r#"exec "$@" <&-"#, &[]));
    tells(&output, "standard input: Bad file descriptor", b"");
    // A file is read all the same.
    let log = some_log();
    let path = stored("beside a closed input.log", &log);
    prints(&run(logread_by_shell(r#"exec "$@" <&-"#, &[&path])), &wanted(&log));
}

#[test]
fn input_that_has_nothing_yet() {
    let (_kept, input) = waiting(&[]);
    let mut program = logread();
    program.stdin(input);
    tells(&run(program), "standard input: Resource temporarily unavailable", b"");
}

/// The lines of the whole records stay. The part of a record that came is no short last piece, since more may follow.
#[test]
fn input_that_stops_within_a_record() {
    let log = some_log();
    for size in [1, 135, 136, 137, 3 * 136 + 50, 30_000] {
        let (_kept, input) = waiting(&log[..size]);
        let mut program = logread();
        program.stdin(input);
        let output = run(program);
        let lines = lines_only(&log[..size]);
        assert_eq!(lines.iter().filter(|&&it| it == b'\n').count(), size / LOG_RECORD);
        tells(&output, "standard input: Resource temporarily unavailable", &lines);
    }
    // The same bytes with an end after them are a log, with a short last piece and totals.
    let (kept, input) = waiting(&log[..3 * 136 + 50]);
    drop(kept);
    let mut program = logread();
    program.stdin(input);
    prints(&run(program), &wanted(&log[..3 * 136 + 50]));
}

#[test]
fn full_output() {
    for (number, log) in [some_log(), vec![0; 7], Vec::new()].iter().enumerate() {
        let path = stored(&format!("to be printed {number}.log"), log);
        let mut program = logread();
        program.arg(&path).stdout(full());
        tells(&run(program), "standard output: No space left on device", b"");
        let mut program = logread();
        program.stdin(File::open(&path).expect("the log opens")).stdout(full());
        tells(&run(program), "standard output: No space left on device", b"");
    }
}

/// Where the output is closed, the file that is opened gets its number, and must stay as it is.
#[test]
fn closed_output() {
    let log = some_log();
    let path = stored("beside a closed output.log", &log);
    let mut program = logread_by_shell(r#"exec "$@" >&-"#, &[]);
    program.stdin(File::open(&path).expect("the log opens"));
    tells(&run(program), "standard output: Bad file descriptor", b"");
    let output = run(logread_by_shell(r#"exec "$@" >&-"#, &[&path]));
    tells(&output, "standard output: Bad file descriptor", b"");
    assert!(fs::read(&path).expect("the log is there") == log, "the log was changed");
}

#[test]
fn output_that_nobody_reads() {
    let (here, there) = UnixStream::pair().expect("a pair of sockets");
    drop(here);
    let path = stored("read by nobody.log", &some_log());
    // By default the signal of a broken pipe ends a program before it can tell anything.
    let mut program = logread_by_shell(r#"trap "" PIPE; exec "$@""#, &[&path]);
    program.stdout(OwnedFd::from(there));
    tells(&run(program), "standard output: Broken pipe", b"");
}

/// An output that takes some of the lines and then no more: what it took is the start of what is printed, and nothing
/// comes after.
#[test]
fn output_that_stops() {
    let mut log = Vec::new();
    bench_log(73, 60_000, &mut log).expect("writing to memory");
    let path = stored("too much.log", &log);
    let (mut here, there) = UnixStream::pair().expect("a pair of sockets");
    there.set_nonblocking(true).expect("a socket that doesn't wait");
    let mut program = logread();
    program.arg(&path).stdout(OwnedFd::from(there));
    let output = run(program);
    tells(&output, "standard output: Resource temporarily unavailable", b"");
    let mut taken = Vec::new();
    here.read_to_end(&mut taken).expect("what was printed is there");
    let wanted = wanted(&log);
    println!("{} of {} bytes taken", taken.len(), wanted.len());
    assert!(!taken.is_empty() && taken.len() < wanted.len());
    assert!(wanted.starts_with(&taken), "other lines than wanted");
}

/// Nothing can be told, and the lines are as ever.
#[test]
fn closed_standard_error() {
    let log = some_log();
    let path = stored("beside a closed error.log", &log);
    prints(&run(logread_by_shell(r#"exec "$@" 2>&-"#, &[&path])), &wanted(&log));
    let (_kept, input) = waiting(&log[..1000]);
    let mut program = logread_by_shell(r#"exec "$@" 2>&-"#, &[]);
    program.stdin(input);
    prints(&run(program), &lines_only(&log[..1000]));
}
