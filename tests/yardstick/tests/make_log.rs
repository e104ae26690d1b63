//! The logs that are made are what they say.

use std::collections::BTreeSet;
use std::fs;
use std::path::{Path, PathBuf};

use yardstick::make_log::{bench_log, every_log, hour_log};
use yardstick::{decode, log_lines, log_message, read_log, Form, LineValue, LogLine, Table, LOG_RECORD};

fn bench(seed: u64, records: u64) -> Vec<u8> {
    let mut log = Vec::new();
    bench_log(seed, records, &mut log).expect("writing to memory");
    log
}

fn every(seed: u64, records: u64) -> Vec<u8> {
    let mut log = Vec::new();
    every_log(seed, records, &mut log).expect("writing to memory");
    log
}

fn hour() -> Vec<u8> {
    let mut log = Vec::new();
    hour_log(&mut log).expect("writing to memory");
    log
}

/// A file of the repository.
fn file(path: &str) -> PathBuf {
    let manifest = Path::new(env!("CARGO_MANIFEST_DIR"));
    let root = manifest.ancestors().nth(2).expect("two folders below the root");
    root.join(path)
}

/// What the log reader prints.
fn printed(log: &[u8]) -> String {
    let mut output = Vec::new();
    read_log(log, &mut output).expect("reading from memory");
    String::from_utf8(output).expect("lines are text")
}

/// The lines that the log reader prints, without the totals, which have to be right.
fn lines(log: &[u8]) -> Vec<LogLine> {
    let text = printed(log);
    let totals = text.lines().last().expect("totals");
    let lines = log_lines(log, &text);
    let refused = lines.iter().filter(|line| line.refusal != 0).count();
    assert_eq!(totals, format!("total {} refused {refused}", lines.len()));
    lines
}

/// The values of lines.
fn values(lines: &[LogLine]) -> impl Iterator<Item = &LineValue> + Clone {
    lines.iter().filter_map(|line| line.value.as_ref())
}

#[test]
fn equal_seeds_give_equal_logs() {
    for make in [bench, every] {
        assert_eq!(make(7, 3000), make(7, 3000));
        assert_ne!(make(7, 3000), make(8, 3000));
        // A shorter log is the start of a longer one.
        assert_eq!(make(7, 1000), make(7, 3000)[..1000 * LOG_RECORD]);
        assert!(make(7, 0).is_empty());
    }
}

#[test]
fn half_of_a_bench_log_is_accepted_values() {
    for (seed, records) in [(1, 1000), (2, 1000), (3, 2000), (4, 50_000), (5, 200_000)] {
        let lines = lines(&bench(seed, records));
        assert_eq!(lines.len() as u64, records);
        // Those of a 45 have a mode.
        let of_modes = values(&lines).filter(|value| value.mode.is_some()).count();
        assert!(
            of_modes as u64 * 2 >= records,
            "{of_modes} of {records} with seed {seed}"
        );
    }
}

#[test]
fn a_bench_log_is_mixed() {
    let lines = lines(&bench(6, 200_000));
    let singles = values(&lines).filter(|value| value.mode.is_some());
    let ports: BTreeSet<i64> = singles.clone().map(|value| value.port).collect();
    let modes: BTreeSet<_> = singles.clone().map(|value| (value.port, value.mode)).collect();
    let states: BTreeSet<i64> = singles.clone().map(|value| value.state).collect();
    let experiments: BTreeSet<i64> = singles.clone().map(|value| value.experiment).collect();
    let sizes: BTreeSet<usize> = singles.clone().map(|value| value.datasets.len()).collect();
    let negative: BTreeSet<_> = singles
        .filter(|value| value.datasets.iter().any(|&number| number < 0))
        .map(|value| (value.port, value.mode))
        .collect();
    let refusals: BTreeSet<i64> = lines.iter().map(|line| line.refusal).filter(|&it| it != 0).collect();
    println!("ports {ports:?}, modes {modes:?}, states {states:?}, datasets {sizes:?}, refusals {refusals:?}");
    println!("negative in modes {negative:?}");
    println!("{} experiments", experiments.len());
    assert!(ports.len() >= 8);
    assert!(modes.len() >= 18);
    assert!(states.is_superset(&[1, 2, 3].into()));
    assert!(experiments.len() >= 50);
    assert!(sizes.is_superset(&[1, 2, 3, 4, 6].into()));
    // 32, 8 and 16 bits; both positions of a pair.
    let modes_of_motors = [(0, Some(2)), (0, Some(1)), (0, Some(3)), (16, Some(2))];
    assert!(negative.is_superset(&modes_of_motors.into()));
    assert!(refusals.is_superset(&[10, 14, 16, 20, 22].into()));
    let refused = lines.iter().filter(|line| line.refusal != 0).count();
    assert!(refused * 100 < lines.len(), "{refused} refused");
}

/// The colour sensor sends by lists at times, in every state, with one to five values.
#[test]
fn a_bench_log_has_combined_values() {
    let lines = lines(&bench(6, 200_000));
    let combined = values(&lines).filter(|value| value.pointers.is_some());
    let states: BTreeSet<i64> = combined.clone().map(|value| value.state).collect();
    let experiments: BTreeSet<i64> = combined.clone().map(|value| value.experiment).collect();
    let sizes: BTreeSet<usize> = combined.clone().map(|value| value.datasets.len()).collect();
    let pointers: BTreeSet<i64> = combined.clone().filter_map(|value| value.pointers).collect();
    let count = combined.clone().count();
    println!("{count} combined values, states {states:?}, values {sizes:?}, pointers {pointers:?}");
    println!("{} experiments", experiments.len());
    assert!(combined.clone().all(|value| value.port == 2));
    assert!((2000..40_000).contains(&count));
    assert_eq!(states, [1, 2, 3].into());
    assert_eq!(sizes, [1, 2, 3, 4, 5].into());
    assert_eq!(pointers, (1..=31).collect());
    assert!(experiments.len() >= 10);
}

/// The forms of the messages that are accepted, those of lines refused as 18 among them.
fn forms(log: &[u8]) -> BTreeSet<u8> {
    let mut table = Table::default();
    let mut forms = BTreeSet::new();
    for record in log.chunks(LOG_RECORD) {
        if let Ok((way, message, experiment)) = log_message(record) {
            if table.offer(way, message, experiment).is_ok() {
                let decoded = decode(way, message).expect("an accepted message");
                forms.insert(decoded.form.number());
            }
        }
    }
    forms
}

#[test]
fn every_form_and_refusal() {
    let all: BTreeSet<i64> = (0..=7).chain(10..=22).collect();
    for (seed, records) in [(1, 100), (2, 5000)] {
        let log = every(seed, records);
        let lines = lines(&log);
        assert_eq!(lines.len() as u64, records);
        let refusals: BTreeSet<i64> = lines.iter().map(|line| line.refusal).collect();
        assert_eq!(refusals, all, "{records} records");
        assert_eq!(forms(&log).len(), Form::COUNT, "{records} records");
    }
    // The random part has them all on its own.
    let log = every(3, 30_000);
    let random_part = &lines(&log)[100..];
    let refusals: BTreeSet<i64> = random_part.iter().map(|line| line.refusal).collect();
    assert_eq!(refusals, all);
}

/// The messages of combined mode have every answer that they can get, at the start of the log too.
#[test]
fn every_answer_of_combined_mode() {
    let wanted: [(u8, &[i64]); 3] = [
        (0x42, &[0, 5, 6, 7, 10]),
        (0x46, &[0, 5, 6, 10, 15, 16, 17, 18, 20, 21]),
        (0x48, &[0, 5, 6, 10, 21]),
    ];
    for (seed, records) in [(4, 100), (5, 30_000)] {
        let log = every(seed, records);
        let lines = lines(&log);
        for (message_type, answers) in wanted {
            let of_type = lines
                .iter()
                .zip(log.chunks(LOG_RECORD))
                .filter(|(_, record)| record[10] == message_type);
            let seen: BTreeSet<i64> = of_type.map(|(line, _)| line.refusal).collect();
            println!("{records} records, {message_type:02X}: {seen:?}");
            // What reading refuses comes in the random part.
            let wanted = answers.iter().filter(|&&it| records > 100 || it == 0 || it >= 7);
            assert!(
                wanted.clone().all(|it| seen.contains(it)),
                "{message_type:02X}: {seen:?}"
            );
        }
    }
}

/// The log in `examples/` is the one that is made, whole.
#[test]
fn the_hour_is_stored() {
    let stored = fs::read(file("examples/bench.log")).expect("the stored hour");
    assert!(stored == hour(), "`make-log hour > examples/bench.log` stores it anew");
}

/// The times of the hour go forward, from its start to its end.
#[test]
fn the_hour_is_an_hour() {
    let log = hour();
    let times: Vec<u32> = log
        .chunks(LOG_RECORD)
        .map(|record| u32::from_le_bytes(record[..4].try_into().expect("four bytes")))
        .collect();
    assert!(times.is_sorted());
    assert_eq!(times[0], 0);
    assert!((3_590_000..3_600_000).contains(times.last().expect("a last record")));
    assert!((150..=260).contains(&times.len()), "{} records", times.len());
}

/// It shows every state, numbers of every width but one byte, positions under 0, one to three datasets, and the refusals
/// of its story.
#[test]
fn what_the_hour_shows() {
    let log = hour();
    let lines = lines(&log);
    let states: BTreeSet<i64> = values(&lines).map(|value| value.state).collect();
    assert_eq!(states, [0, 1, 2, 3].into());
    let singles = values(&lines).filter(|value| value.mode.is_some());
    let sizes: BTreeSet<usize> = singles.map(|value| value.datasets.len()).collect();
    assert_eq!(sizes, [1, 2, 3].into());
    let negative: Vec<&LineValue> = values(&lines)
        .filter(|value| value.datasets.iter().any(|&number| number < 0))
        .collect();
    let back = |degrees| LineValue {
        port: 0,
        mode: Some(2),
        state: 2,
        experiment: 302,
        pointers: None,
        datasets: vec![degrees],
    };
    assert_eq!(negative, [&back(-8), &back(-3)]);
    let refusals: Vec<i64> = lines.iter().map(|line| line.refusal).filter(|&it| it != 0).collect();
    assert_eq!(refusals, [14, 14, 15, 7, 18, 16, 19, 7, 22, 10, 12, 14, 15, 14, 21, 10]);
}

/// What the colour sensor sends by its lists: pointers, state, experiment number and values.
#[test]
fn combined_values_of_the_hour() {
    let lines = lines(&hour());
    let combined = values(&lines).filter_map(|value| Some((value.pointers?, value)));
    let shown: Vec<(i64, i64, i64, &[i64])> = combined
        .map(|(pointers, value)| (pointers, value.state, value.experiment, &value.datasets[..]))
        .collect();
    let wanted: [(i64, i64, i64, &[i64]); 6] = [
        (15, 2, 303, &[3, 50, 64, 205]),
        (1, 2, 303, &[9]),
        (14, 1, 0, &[211, 39, 30]),
        (1, 3, 0, &[212]),
        (3, 2, 303, &[212, 40]),
        (2, 2, 303, &[44]),
    ];
    assert_eq!(shown, wanted);
}

/// The records of the hour carry the number of the running experiment, and its values do in state 2 and in no other.
#[test]
fn experiments_of_the_hour() {
    let log = hour();
    let mut numbers: Vec<u16> = log
        .chunks(LOG_RECORD)
        .map(|record| u16::from(record[6]) + 256 * u16::from(record[7]))
        .collect();
    numbers.dedup();
    assert_eq!(numbers, [0, 301, 302, 303]);
    let mut shown = BTreeSet::new();
    for value in values(&lines(&log)) {
        let [state, experiment] = [value.state, value.experiment];
        assert_eq!(state == 2, experiment != 0, "{value:?}");
        shown.insert([state, experiment]);
    }
    assert_eq!(shown, [[0, 0], [1, 0], [2, 301], [2, 302], [2, 303], [3, 0]].into());
}

/// Between a 41 and its 47 the values of motor A are in the old mode, in state 1 and without an experiment number, both
/// times; before and after they are in state 2 and have that of the experiment.
#[test]
fn late_answers_of_the_hour() {
    let mut stages: Vec<([i64; 3], Vec<i64>)> = Vec::new();
    for value in values(&lines(&hour())).filter(|value| value.port == 0) {
        let mode = value.mode.expect("motor A is never combined");
        let (now, number) = ([mode, value.state, value.experiment], value.datasets[0]);
        match stages.last_mut() {
            Some((stage, numbers)) if *stage == now => numbers.push(number),
            _ => stages.push((now, vec![number])),
        }
    }
    let order: Vec<[i64; 3]> = stages.iter().map(|&(stage, _)| stage).collect();
    assert_eq!(order, [[1, 2, 301], [1, 1, 0], [2, 2, 302], [2, 1, 0], [1, 2, 303]]);
    assert_eq!(stages[1].1, [598, 451, 287, 140, 36]);
    assert_eq!(stages[3].1, [454, 461, 489, 530]);
}

/// Each line that the README's walk through the hour shows, first in a row of a table, is one that is printed.
#[test]
fn the_readme_shows_lines_of_the_hour() {
    let readme = fs::read_to_string(file("README.md")).expect("the README");
    let text = printed(&hour());
    let mut printed = text.lines();
    let shown = readme
        .lines()
        .filter_map(|row| row.strip_prefix("| `")?.split_once("` |"))
        .map(|(line, _)| line)
        .filter(|line| line.starts_with("total ") || line.starts_with(|first: char| first.is_ascii_digit()));
    let mut count = 0;
    for line in shown {
        // In the order of the log.
        assert!(
            printed.any(|it| it == line),
            "`{line}` is not printed, or not in this order"
        );
        count += 1;
    }
    assert!(count >= 12, "{count} lines");
}

/// The stored run of the product's log reader: records of every refusal and form, and a short last piece.
#[test]
fn the_stored_run() {
    let log = &every(1, 601)[..600 * LOG_RECORD + 77];
    let [input, output] = ["crates/logread/stdin", "crates/logread/stdout"].map(|path| fs::read(file(path)));
    assert!(input.expect("the stored input") == log);
    assert!(output.expect("the stored output") == printed(log).as_bytes());
}
