//! Whole numbers are printed with their sign: every number of 8 and 16 bits and many of 32, as the second program prints
//! them, and as Rust's own integers read their bytes. The seeds are fixed.

use std::fs;

use differential::signed::{
    datasets, messages, number, orders_of_signs, unsigned, value, with_signs, Signs, EXPERIMENT, KINDS, MODE, PORT,
};
use differential::{printed, root, wanted, Random};
use yardstick::make_log::{bench_log, every_log, hour_log};
use yardstick::{log_message, log_record, Table, Way, LOG_RECORD};

/// A log with the lines that have to be printed of it.
#[derive(Default)]
struct Log {
    bytes: Vec<u8>,
    lines: String,
    records: usize,
    signs: Signs,
}

impl Log {
    fn push(&mut self, way: Way, message: &[u8], line: &str) {
        self.records += 1;
        self.bytes.extend(log_record(0, way, message, EXPERIMENT));
        self.lines.push_str(&format!("{} 0{line}\n", self.records));
    }

    /// From here on the port sends values of a format.
    fn set_format(&mut self, datasets: usize, kind: u64) {
        // It is attached once.
        let done = usize::from(self.records > 0);
        for (way, message) in &messages(datasets, kind)[done..] {
            self.push(*way, message, "");
        }
    }

    fn push_value(&mut self, datasets: &[Vec<u8>]) {
        let mut line = format!(" {PORT} {MODE} 2 {EXPERIMENT}");
        for dataset in datasets {
            line.push_str(&format!(" {}", number(dataset)));
            self.signs.count(number(dataset));
        }
        self.push(Way::Up, &value(datasets), &line);
    }

    /// Both programs have to print the lines, and no record is refused.
    #[track_caller]
    fn compare(&self, name: &str) {
        let text = format!("{}total {} refused 0\n", self.lines, self.records);
        assert!(
            wanted(&self.bytes) == text.as_bytes(),
            "{name}: other lines by the second program"
        );
        let output = printed(&self.bytes);
        assert_eq!(String::from_utf8_lossy(&output.stderr), "", "{name}");
        let by_product = String::from_utf8_lossy(&output.stdout);
        for (line, expected) in by_product.lines().zip(text.lines()) {
            assert_eq!(line, expected, "{name}");
        }
        assert!(by_product == text, "{name}: other lines by the product");
    }
}

/// One in a line, and sixteen in a line.
#[test]
fn numbers() {
    for ((kind, width), least) in KINDS.into_iter().zip([128, 32_768, 25_000]) {
        for count in [1, 16] {
            let mut log = Log::default();
            log.set_format(count, kind);
            for datasets in datasets(width).chunks_exact(count) {
                log.push_value(datasets);
            }
            let name = format!("printed, {} bits, {count} in a line", 8 * width);
            log.compare(&name);
            log.signs.expect(&name, least);
        }
    }
}

/// Datasets of mixed sign in one line, and another format in the next.
#[test]
fn mixed_signs() {
    let mut random = Random::new(83);
    let mut log = Log::default();
    for order in orders_of_signs(&mut random) {
        for (kind, width) in KINDS {
            log.set_format(order.len(), kind);
            log.push_value(&with_signs(&mut random, width, &order));
        }
    }
    log.compare("printed, mixed");
    log.signs.expect("printed, mixed", 6000);
}

/// The longest line that a value has, over and over: sixteen times -2147483648.
#[test]
fn longest_lines() {
    let least = vec![i32::MIN.to_le_bytes().to_vec(); 16];
    let mut log = Log::default();
    log.set_format(16, 2);
    for _ in 0..20_000 {
        log.push_value(&least);
    }
    log.compare("longest lines");
    let last = log.lines.lines().last().expect("a line");
    assert_eq!(last, format!("20004 0 255 15 2 65535{}", " -2147483648".repeat(16)));
    println!("longest lines: {}, the last of {} bytes", log.records, last.len());
}

/// Counts datasets by what became of them when whole numbers got a sign.
#[derive(Debug, Default)]
struct Since {
    /// Whole numbers that are printed as before.
    same: u64,
    /// Whole numbers that now have a minus sign.
    signed: u64,
    /// Floats, which are printed as before.
    floats: u64,
}

/// Holds each dataset of a 45 that is printed of a log to what was printed when there was no sign. There were no 46s then.
fn compare_with_unsigned(log: &[u8], since: &mut Since) {
    let text = String::from_utf8(printed(log).stdout).expect("lines are text");
    let mut table = Table::default();
    for (line, record) in text.lines().zip(log.chunks(LOG_RECORD)) {
        let Ok((way, message, experiment)) = log_message(record) else {
            continue;
        };
        // A refused message changes nothing.
        let _ = table.offer(way, message, experiment);
        if message.get(2) == Some(&0x46) {
            continue;
        }
        let words: Vec<&str> = line.split(' ').collect();
        let [_, _, port, mode, _, _, datasets @ ..] = &words[..] else {
            continue;
        };
        let [port, mode] = [port, mode].map(|it| it.parse().expect("a byte"));
        let format = table.format(port, mode).expect("an accepted value has a format");
        let width = [1, 2, 4, 4][usize::from(format.kind)];
        let bytes = message[4..].chunks_exact(width);
        assert_eq!(datasets.len(), bytes.len(), "{line}");
        for (printed, bytes) in datasets.iter().zip(bytes) {
            let before = unsigned(bytes);
            let range = 1 << (8 * width);
            let (count, now) = if format.kind == 3 {
                (&mut since.floats, before.to_string())
            } else if before < range / 2 {
                (&mut since.same, before.to_string())
            } else {
                (&mut since.signed, format!("-{}", range - before))
            };
            assert_eq!(*printed, now, "{line}");
            *count += 1;
        }
    }
}

/// Logs are printed as they were when whole numbers had no sign, but for those in the upper half of their range.
#[test]
fn old_logs() {
    let mut logs = vec![fs::read(root().join("crates/logread/stdin")).expect("the stored log")];
    let mut hour = Vec::new();
    hour_log(&mut hour).expect("writing to memory");
    logs.push(hour);
    for seed in 91..95 {
        let [mut bench, mut every] = [Vec::new(), Vec::new()];
        bench_log(seed, 5000, &mut bench).expect("writing to memory");
        every_log(seed, 5000, &mut every).expect("writing to memory");
        logs.extend([bench, every]);
    }
    let mut since = Since::default();
    for log in &logs {
        compare_with_unsigned(log, &mut since);
    }
    println!("old logs: {since:?}");
    assert!(since.same > 5000 && since.signed > 5000 && since.floats > 2000);
}
