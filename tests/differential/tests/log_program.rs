//! The product's log reader prints what the second program's prints, byte for byte. The seeds are fixed, so every run
//! reads the same logs.

use std::process::Output;

use differential::{printed, printed_in_pieces, wanted, Random};
use yardstick::examples::{bytes, LOGS};
use yardstick::make_log::{bench_log, every_log, hour_log};
use yardstick::traffic::experiment;
use yardstick::{log_lines, log_record, LogLine, Way, LOG_RECORD};

/// Counts lines by their refusal, and values.
#[derive(Default)]
struct Lines {
    by_refusal: [u64; 24],
    values: u64,
    /// Values by their state, and those with an experiment number other than 0.
    by_state: [u64; 4],
    with_number: u64,
    /// Values with a negative dataset.
    negative: u64,
    /// Values of a 46, by their state.
    combined: [u64; 4],
}

impl Lines {
    fn add(&mut self, log: &[u8], text: &[u8]) {
        for line in lines_of(log, text) {
            self.by_refusal[line.refusal as usize] += 1;
            if let Some(value) = line.value {
                self.values += 1;
                self.by_state[value.state as usize] += 1;
                self.with_number += u64::from(value.experiment != 0);
                self.negative += u64::from(value.datasets.iter().any(|&number| number < 0));
                self.combined[value.state as usize] += u64::from(value.pointers.is_some());
            }
        }
    }

    fn print(&self, name: &str) {
        println!(
            "{name}: lines by refusal {:?}, with values {}, by state {:?}, with a number {}, negative {}, combined, by \
             state {:?}",
            self.by_refusal, self.values, self.by_state, self.with_number, self.negative, self.combined
        );
    }
}

/// Lines that were printed of a log, without the totals.
fn lines_of(log: &[u8], text: &[u8]) -> Vec<LogLine> {
    log_lines(log, std::str::from_utf8(text).expect("lines are text"))
}

/// The output is what the second program prints of the log, and nothing is told.
#[track_caller]
fn agrees(output: &Output, log: &[u8], what: &str) {
    let told = String::from_utf8_lossy(&output.stderr);
    assert_eq!(told, "", "{what}: something on standard error");
    assert!(
        output.stdout == wanted(log),
        "{what}: other lines than the second program's"
    );
}

#[track_caller]
fn compare(log: &[u8], lines: &mut Lines, what: &str) {
    agrees(&printed(log), log, what);
    lines.add(log, &wanted(log));
}

#[test]
fn examples() {
    for example in LOGS {
        let output = printed(&example.log());
        assert_eq!(
            String::from_utf8_lossy(&output.stdout),
            example.lines,
            "{}",
            example.name
        );
        assert_eq!(String::from_utf8_lossy(&output.stderr), "", "{}", example.name);
    }
}

#[test]
fn hour() {
    let mut log = Vec::new();
    hour_log(&mut log).expect("writing to memory");
    let mut lines = Lines::default();
    compare(&log, &mut lines, "hour");
    lines.print("hour");
    assert!(lines.with_number > 50);
    assert_eq!(lines.negative, 2);
    assert_eq!(lines.combined, [0, 1, 4, 1]);
}

#[test]
fn made_logs() {
    let mut lines = Lines::default();
    for seed in 0..12 {
        let records = [1, 40, 480, 481, 482, 5000][seed as usize % 6];
        let [mut bench, mut every] = [Vec::new(), Vec::new()];
        bench_log(seed, records, &mut bench).expect("writing to memory");
        every_log(seed, records, &mut every).expect("writing to memory");
        compare(&bench, &mut lines, "bench");
        compare(&every, &mut lines, "every");
    }
    lines.print("made logs");
    for refusal in (0..=7).chain(10..=22) {
        assert!(lines.by_refusal[refusal] > 10, "refusal {refusal} is seldom");
    }
    assert!(lines.values > 1000);
    assert!(lines.by_state[1] > 100 && lines.by_state[3] > 100);
    assert!(lines.with_number > 1000);
    assert!(lines.negative > 1000);
    assert!(lines.combined[1..].iter().all(|&seen| seen > 20));
}

#[test]
fn last_pieces() {
    let mut log = Vec::new();
    every_log(31, 3, &mut log).expect("writing to memory");
    let mut lines = Lines::default();
    for size in 0..=log.len() {
        compare(&log[..size], &mut lines, "last piece");
    }
    lines.print("last pieces");
}

#[test]
fn malformed_records() {
    let good = log_record(9, Way::Up, &bytes("05 00 04 00 00"), 0);
    let mut log = Vec::new();
    for place in 0..LOG_RECORD {
        for value in [0, 1, 2, 4, 5, 126, 127, 128, 129, 255] {
            let mut record = good;
            record[place] = value;
            log.extend_from_slice(&record);
        }
    }
    for length in 0..=255 {
        for filling in [0, 1, 255] {
            let mut record = [filling; LOG_RECORD];
            record[..8].fill(0);
            record[8] = length;
            log.extend_from_slice(&record);
        }
    }
    let mut lines = Lines::default();
    compare(&log, &mut lines, "malformed");
    lines.print("malformed records");
    assert!(lines.by_refusal[19] > 1000);
}

/// Bytes 5, 6 and 7 of the records of made logs are any: 19 looks at byte 5 alone, and 6 and 7 are the number.
#[test]
fn random_bytes_before_the_message() {
    let mut random = Random::new(61);
    let mut lines = Lines::default();
    for seed in 61..69 {
        let mut log = Vec::new();
        if seed % 2 == 0 {
            bench_log(seed, 2000, &mut log).expect("writing to memory");
        } else {
            every_log(seed, 2000, &mut log).expect("writing to memory");
        }
        for record in log.chunks_exact_mut(LOG_RECORD) {
            record[5] = if random.once_in(16) { random.byte() } else { 0 };
            record[6] = random.byte();
            record[7] = random.byte();
        }
        compare(&log, &mut lines, "random bytes before the message");
    }
    lines.print("random bytes before the message");
    assert!(lines.by_refusal[19] > 500);
    assert!(lines.with_number > 1000);
}

/// Where every number of a log is 0, every value's is. With other numbers the lines are the same but for the numbers of
/// values in state 2.
#[test]
fn numbers_change_values_in_state_2_alone() {
    let mut random = Random::new(62);
    let [mut in_state_2, mut others, mut changed] = [0, 0, 0];
    for seed in 71..77 {
        let mut log = Vec::new();
        if seed % 2 == 0 {
            bench_log(seed, 3000, &mut log).expect("writing to memory");
        } else {
            every_log(seed, 3000, &mut log).expect("writing to memory");
        }
        let mut without = log.clone();
        for (record, without) in log
            .chunks_exact_mut(LOG_RECORD)
            .zip(without.chunks_exact_mut(LOG_RECORD))
        {
            record[6..8].copy_from_slice(&experiment(&mut random).to_le_bytes());
            without[6..8].fill(0);
        }
        let [lines, without] = [log, without].map(|log| lines_of(&log, &printed(&log).stdout));
        assert_eq!(lines.len(), without.len());
        for (mut line, without) in lines.into_iter().zip(without) {
            match &mut line.value {
                Some(value) if value.state == 2 => {
                    in_state_2 += 1;
                    changed += u64::from(value.experiment != 0);
                    value.experiment = 0;
                }
                value => others += u64::from(value.is_some()),
            }
            // In states 0, 1 and 3 the number is 0 in both.
            assert!(without.value.iter().all(|value| value.experiment == 0), "{without:?}");
            assert_eq!(line, without);
        }
    }
    println!("{in_state_2} values in state 2, {changed} of them with a number, {others} other values");
    assert!(changed > 3000 && others > 500);
}

#[test]
fn random_records() {
    let mut random = Random::new(41);
    let mut lines = Lines::default();
    for _ in 0..40 {
        let size = random.below(200 * LOG_RECORD);
        let log: Vec<u8> = (0..size).map(|_| random.below(256) as u8).collect();
        compare(&log, &mut lines, "random");
    }
    lines.print("random records");
}

#[test]
fn slow_pipes() {
    let mut log = Vec::new();
    every_log(51, 60, &mut log).expect("writing to memory");
    log.truncate(log.len() - 5);
    agrees(&printed_in_pieces(&log, &[1]), &log, "one byte at a time");
    log.clear();
    bench_log(52, 3000, &mut log).expect("writing to memory");
    let mut lines = Lines::default();
    lines.add(&log, &wanted(&log));
    lines.print("slow pipes");
    assert!(lines.values > 1000 && lines.negative > 500);
    for sizes in [&[135, 1][..], &[137], &[4096, 3, 65536], &[65535], &[65537], &[100_000]] {
        agrees(&printed_in_pieces(&log, sizes), &log, &format!("pieces of {sizes:?}"));
    }
}
