//! The log reader prints what it has to print.

use std::io::{self, Read, Write};

use yardstick::examples::{bytes, LOGS};
use yardstick::make_log::{bench_log, every_log};
use yardstick::{log_record, read_block, read_log, Random, Table, Way, LINE_ROOM, LOG_RECORD};

fn printed(log: &[u8]) -> String {
    let mut output = Vec::new();
    read_log(log, &mut output).expect("reading from memory");
    String::from_utf8(output).expect("lines are text")
}

#[test]
fn examples() {
    for example in LOGS {
        assert_eq!(printed(&example.log()), example.lines, "{}", example.name);
    }
}

/// An input that gives few bytes at a time and is interrupted, and an output that takes few.
struct Slow<T> {
    inner: T,
    calls: usize,
}

impl<T> Slow<T> {
    fn new(inner: T) -> Slow<T> {
        Slow { inner, calls: 0 }
    }

    /// How many bytes this call may pass on.
    fn allowed(&mut self) -> io::Result<usize> {
        self.calls += 1;
        match self.calls % 5 {
            0 => Err(io::ErrorKind::Interrupted.into()),
            rest => Ok(rest * 7),
        }
    }
}

impl<T: Read> Read for Slow<T> {
    fn read(&mut self, buffer: &mut [u8]) -> io::Result<usize> {
        let allowed = self.allowed()?.min(buffer.len());
        self.inner.read(&mut buffer[..allowed])
    }
}

impl<T: Write> Write for Slow<T> {
    fn write(&mut self, buffer: &[u8]) -> io::Result<usize> {
        let allowed = self.allowed()?.min(buffer.len());
        self.inner.write(&buffer[..allowed])
    }

    fn flush(&mut self) -> io::Result<()> {
        self.inner.flush()
    }
}

#[test]
fn examples_in_small_pieces() {
    for example in LOGS {
        let log = example.log();
        let mut output = Vec::new();
        read_log(Slow::new(&log[..]), Slow::new(&mut output)).expect("reading from memory");
        assert_eq!(String::from_utf8_lossy(&output), example.lines, "{}", example.name);
    }
}

#[test]
fn errors_are_passed_on() {
    struct Broken;
    impl Read for Broken {
        fn read(&mut self, _: &mut [u8]) -> io::Result<usize> {
            Err(io::ErrorKind::BrokenPipe.into())
        }
    }
    impl Write for Broken {
        fn write(&mut self, _: &[u8]) -> io::Result<usize> {
            Err(io::ErrorKind::BrokenPipe.into())
        }
        fn flush(&mut self) -> io::Result<()> {
            Err(io::ErrorKind::BrokenPipe.into())
        }
    }
    let error = |result: io::Result<()>| result.map_err(|error| error.kind());
    assert_eq!(error(read_log(Broken, Vec::new())), Err(io::ErrorKind::BrokenPipe));
    assert_eq!(error(read_log(&[][..], Broken)), Err(io::ErrorKind::BrokenPipe));
}

/// A last piece of every size under a record's is one more line, and counts in both totals.
#[test]
fn short_last_piece() {
    let log = [log_record(0, Way::Down, &[0x03, 0x00, 0x12], 7); 2].concat();
    for size in 1..LOG_RECORD {
        let text = printed(&log[..LOG_RECORD + size]);
        assert_eq!(text, "1 0\n2 19\ntotal 2 refused 1\n", "{size} bytes");
        // Even if the piece is zeros.
        assert_eq!(printed(&vec![0; size]), "1 19\ntotal 1 refused 1\n", "{size} bytes");
    }
}

fn refusal_of(record: &[u8; LOG_RECORD]) -> String {
    let text = printed(record);
    let line = text.lines().next().expect("a line for the record");
    line.strip_prefix("1 ").expect("the record's number").to_owned()
}

/// Each byte of a record changed: the time and the experiment number may be any; direction, the zero and the bytes after
/// the message may not.
#[test]
fn malformed_records() {
    let record = log_record(u32::MAX, Way::Down, &[0x03, 0x00, 0x12], 0);
    assert_eq!(refusal_of(&record), "0");
    for place in 0..LOG_RECORD {
        for content in [1, 2, 3, 0x80, 0xFF] {
            let mut changed = record;
            changed[place] = content;
            let expected = match (place, content) {
                (0..=3 | 6..=7, _) => "0",
                (4, 1) => "5",
                // The length: what follows a shorter message isn't zeros.
                (8, 1 | 2) => "19",
                (8, 3) => "0",
                (8, 0x80 | 0xFF) => "2",
                (9, _) => "4",
                (10, 1 | 3) => "6",
                (10, 2) => "6",
                (10, _) => "5",
                _ => "19",
            };
            assert_eq!(refusal_of(&changed), expected, "{content} at {place}");
        }
    }
}

/// 19 is tested before anything about the message.
#[test]
fn malformed_records_with_refused_messages() {
    for message in ["", "01", "80", "03 01 12", "03 00 02", "05 00 04 00 00"] {
        let record = log_record(0, Way::Up, &bytes(message), 0);
        let refusal = refusal_of(&record);
        assert_ne!(refusal, "19", "`{message}`");
        for (place, expected) in [(4, "19"), (5, "19"), (6, &refusal), (7, &refusal)] {
            let mut changed = record;
            changed[place] = 2;
            assert_eq!(refusal_of(&changed), expected, "`{message}`, byte {place}");
        }
    }
}

#[test]
fn lengths() {
    // No message: 1, unless a byte follows.
    let mut record = log_record(0, Way::Up, &[], 0);
    assert_eq!(refusal_of(&record), "1");
    record[135] = 1;
    assert_eq!(refusal_of(&record), "19");
    // Lengths under 3.
    assert_eq!(refusal_of(&log_record(0, Way::Up, &[1], 0)), "3");
    assert_eq!(refusal_of(&log_record(0, Way::Up, &[2, 1], 0)), "3");
    // The longest message has one byte after it.
    let mut message = [0x41; 127];
    message[..5].copy_from_slice(&[127, 0, 0x01, 8, 6]);
    let mut record = log_record(0, Way::Up, &message, 0);
    assert_eq!(refusal_of(&record), "0");
    record[135] = 1;
    assert_eq!(refusal_of(&record), "19");
    // From 128 on all bytes are the message, whatever they are.
    for length in [128, 129, 255] {
        record[8] = length;
        assert_eq!(refusal_of(&record), "2");
    }
}

/// Floats are printed as their bits. The line of a value with a NaN is 18, and counts as refused.
#[test]
fn floats() {
    let messages = [
        (Way::Up, "0F 00 04 FF 01 26 00 00 00 00 10 00 00 00 10"),
        (Way::Up, "0A 00 44 FF 0F 80 02 03 04 00"),
        (Way::Up, "0A 00 47 FF 0F 01 00 00 00 01"),
        (Way::Up, "0C 00 45 FF 00 00 80 BF FF FF 7F 7F"),
        (Way::Up, "0C 00 45 FF 00 00 80 3F 00 00 80 7F"),
        (Way::Up, "0C 00 45 FF 00 00 C0 7F 00 00 80 3F"),
        (Way::Down, "0A 00 41 FF 0F 01 00 00 00 01"),
        (Way::Up, "0C 00 45 FF 00 00 00 00 00 00 00 80"),
        (Way::Up, "0A 00 47 FF 0F 01 00 00 00 01"),
        (Way::Up, "0C 00 45 FF 00 00 00 00 00 00 00 80"),
    ];
    let record = |(way, message): (Way, &str)| log_record(0x0102_0304, way, &bytes(message), 9);
    let log: Vec<u8> = messages.into_iter().flat_map(record).collect();
    assert_eq!(
        printed(&log),
        "1 0\n2 0\n3 0\n4 0 255 15 0 0 3212836864 2139095039\n5 18\n6 18\n7 0\n8 0 255 15 1 0 0 2147483648\n\
         9 0\n10 0 255 15 2 9 0 2147483648\ntotal 10 refused 2\n"
    );
}

/// A log of 400 records, some of them values.
fn made_log(seed: u64) -> Vec<u8> {
    let mut log = Vec::new();
    let made = match seed % 2 {
        0 => bench_log(seed, 400, &mut log),
        _ => every_log(seed, 400, &mut log),
    };
    made.expect("writing to memory");
    log
}

/// The lines of blocks of any sizes, one after the other, are those of the whole log.
#[test]
fn blocks() {
    let mut random = Random::new(5);
    for seed in 0..20 {
        let log = made_log(seed);
        let (mut table, mut totals, mut text, mut taken) = (Table::default(), [0, 0], Vec::new(), 0);
        while taken < log.len() {
            let end = log.len().min(taken + random.below(20 * LOG_RECORD));
            let room = random.below(6 * LINE_ROOM);
            let lines = read_block(&mut table, &mut totals, &log[taken..end], room);
            assert!(lines.len() <= room);
            taken += lines.iter().filter(|&&byte| byte == b'\n').count() * LOG_RECORD;
            text.extend(lines);
        }
        text.extend(format!("total {} refused {}\n", totals[0], totals[1]).bytes());
        assert_eq!(String::from_utf8_lossy(&text), printed(&log), "seed {seed}");
    }
}

/// A block ends where there is no room for another line, or a total can't count one more.
#[test]
fn ends_of_blocks() {
    let log = [log_record(0, Way::Down, &[0x03, 0x00, 0x12], 7); 4].concat();
    let most = u64::MAX;
    for (totals, room, text, after) in [
        ([0, 0], LINE_ROOM - 1, String::new(), [0, 0]),
        ([0, 0], LINE_ROOM, "1 0\n".to_owned(), [1, 0]),
        ([0, 0], LINE_ROOM + 3, "1 0\n".to_owned(), [1, 0]),
        ([0, 0], LINE_ROOM + 4, "1 0\n2 0\n".to_owned(), [2, 0]),
        ([8, 3], 2000, "9 0\n10 0\n11 0\n12 0\n".to_owned(), [12, 3]),
        ([most - 2, 0], 2000, format!("{} 0\n{most} 0\n", most - 1), [most, 0]),
        ([most, 0], 2000, String::new(), [most, 0]),
        ([0, most], 2000, String::new(), [0, most]),
    ] {
        let mut counted = totals;
        let lines = read_block(&mut Table::default(), &mut counted, &log, room);
        assert_eq!(String::from_utf8_lossy(&lines), text, "{totals:?}, room {room}");
        assert_eq!(counted, after, "{totals:?}, room {room}");
    }
    // The third record is refused, and with it the total can count no more.
    let mut log = log;
    log[2 * LOG_RECORD + 4] = 2;
    let mut totals = [0, most - 1];
    let lines = read_block(&mut Table::default(), &mut totals, &log, 2000);
    assert_eq!(String::from_utf8_lossy(&lines), "1 0\n2 0\n3 19\n");
    assert_eq!(totals, [3, most]);
}
