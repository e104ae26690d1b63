//! The product's log reader as a program.

use std::io::{pipe, Read, Write};
use std::path::{Path, PathBuf};
use std::process::{Command, Output, Stdio};
use std::thread::{self, JoinHandle};
use std::time::{Duration, Instant};

use yardstick::read_log;

/// How long a run may take.
const LONGEST: Duration = Duration::from_secs(60);

/// The root of the repository.
pub fn root() -> PathBuf {
    let manifest = Path::new(env!("CARGO_MANIFEST_DIR"));
    let root = manifest.ancestors().nth(2);
    root.expect("two folders below the root").to_owned()
}

/// The path of the product's log reader, which `rt ci` builds.
pub fn logread_path() -> PathBuf {
    let path = root().join("crates/logread/out/logread");
    assert!(
        path.exists(),
        "{} doesn't exist: `rt run` in crates/logread builds it",
        path.display()
    );
    path
}

/// The product's log reader with an empty standard input. What it prints and tells is kept.
pub fn logread() -> Command {
    kept(Command::new(logread_path()))
}

/// The product's log reader with what a shell does before it: in `script`, `"$@"` is the log reader with arguments.
pub fn logread_by_shell(script: &str, arguments: &[&Path]) -> Command {
    let mut shell = Command::new("sh");
    shell.args(["-c", script, "sh"]).arg(logread_path()).args(arguments);
    kept(shell)
}

fn kept(mut command: Command) -> Command {
    command
        .stdin(Stdio::null())
        .stdout(Stdio::piped())
        .stderr(Stdio::piped());
    command
}

/// Runs a program to its end. It has to end by itself, and in time.
pub fn run(mut command: Command) -> Output {
    let mut program = command.spawn().expect("the program runs");
    // With it go this process's ends of what it was lent.
    drop(command);
    let [stdout, stderr] = [program.stdout.take().map(read_all), program.stderr.take().map(read_all)];
    let start = Instant::now();
    let status = loop {
        if let Some(status) = program.try_wait().expect("the program is there") {
            break status;
        }
        if start.elapsed() > LONGEST {
            program.kill().expect("the program is there");
            panic!("the program doesn't end");
        }
        thread::sleep(Duration::from_micros(500));
    };
    assert!(status.code().is_some(), "a signal ended the program: {status}");
    let [stdout, stderr] = [stdout, stderr].map(|it| it.map_or_else(Vec::new, |it| it.join().expect("a reader ends")));
    Output { status, stdout, stderr }
}

/// What the product's log reader prints and tells of a log.
pub fn printed(log: &[u8]) -> Output {
    printed_in_pieces(log, &[log.len().max(1)])
}

/// The same of a log that comes in pieces of these sizes, over and over.
pub fn printed_in_pieces(log: &[u8], sizes: &[usize]) -> Output {
    let (reader, mut writer) = pipe().expect("a pipe");
    let (log, sizes) = (log.to_vec(), sizes.to_vec());
    let writing = thread::spawn(move || {
        let mut rest = &log[..];
        for size in sizes.iter().cycle() {
            if rest.is_empty() {
                break;
            }
            let (piece, later) = rest.split_at(rest.len().min(*size));
            writer.write_all(piece).expect("the log reader takes all of its input");
            rest = later;
        }
    });
    let mut program = logread();
    program.stdin(reader);
    let output = run(program);
    writing.join().expect("the writing ends");
    output
}

fn read_all(mut pipe: impl Read + Send + 'static) -> JoinHandle<Vec<u8>> {
    thread::spawn(move || {
        let mut bytes = Vec::new();
        pipe.read_to_end(&mut bytes).expect("a pipe can be read");
        bytes
    })
}

/// What the second program prints of a log.
pub fn wanted(log: &[u8]) -> Vec<u8> {
    let mut lines = Vec::new();
    read_log(log, &mut lines).expect("reading from memory");
    lines
}
