//! Laws of experiment numbers, on guided lists and on logs. The seeds are fixed.

use yardstick::make_log::{bench_log, every_log, hour_log};
use yardstick::traffic::{experiment, Scene, Traffic};
use yardstick::{decode, log_lines, read_log, Form, LogLine, MessageList, Random, Table, LOG_RECORD};

/// What asks a port for something: a 41, and a 42 with sub command 1.
const ASKINGS: [Form; 2] = [Form::InputFormatSetup, Form::ModeDatasets];

/// Numbers that a message may come with.
const NUMBERS: [u16; 5] = [0, 1, 0x0100, 0x0102, u16::MAX];

/// A message that is no accepted asking leaves the same table whatever its number. An asking leaves tables that differ in
/// the number of its port alone. The answer never hangs on the number.
#[test]
fn only_an_accepted_asking_leaves_its_number() {
    let [mut asked, mut others, mut refused] = [0, 0, 0];
    for seed in 0..100 {
        let mut traffic = Traffic::new(seed, Scene::ALL[seed as usize % Scene::ALL.len()]);
        let mut table = Table::default();
        for _ in 0..300 {
            let (way, message, experiment) = traffic.next(&table);
            let mut after = table.clone();
            let answer = after.offer(way, &message, experiment);
            let is_asking = decode(way, &message).is_ok_and(|it| ASKINGS.contains(&it.form));
            for number in NUMBERS {
                let mut other = table.clone();
                assert_eq!(
                    other.offer(way, &message, number),
                    answer,
                    "{message:02X?} with {number}"
                );
                if answer.is_ok() && is_asking {
                    let port = other.port(message[3]).expect("the port is present");
                    assert_eq!(port.experiment, number, "{message:02X?}");
                    // Asked again with the first number, it is the same table.
                    other.offer(way, &message, experiment).expect("the port is present");
                }
                assert_eq!(other, after, "{message:02X?} with {number}");
            }
            match answer {
                Ok(()) if is_asking => asked += 1,
                Ok(()) => others += 1,
                Err(_) => refused += 1,
            }
            table = after;
        }
    }
    println!("{asked} askings, {others} other accepted messages, {refused} refused ones");
    assert!(asked >= 2000 && others >= 10_000 && refused >= 4000);
}

/// The same of the reader without a table, at every port that is present.
#[test]
fn only_an_accepted_asking_leaves_its_number_in_a_list() {
    let [mut asked, mut others, mut refused] = [0, 0, 0];
    for seed in 200..290 {
        let mut traffic = Traffic::new(seed, Scene::ALL[seed as usize % Scene::ALL.len()]);
        let (mut table, mut list) = (Table::default(), MessageList::default());
        for _ in 0..100 {
            let (way, message, experiment) = traffic.next(&table);
            let is_asking = decode(way, &message).is_ok_and(|it| ASKINGS.contains(&it.form));
            let number = !experiment;
            let mut other = list.clone();
            let answer = list.push(way, &message, experiment);
            assert_eq!(
                other.push(way, &message, number),
                answer,
                "{message:02X?} with {number}"
            );
            let _ = table.offer(way, &message, experiment);
            for port in table.ports() {
                let (mut by_other, by_list) = (other.port(port), list.port(port));
                if answer.is_ok() && is_asking && port == message[3] {
                    let by_other = by_other.as_mut().expect("the port is present");
                    assert_eq!(by_other.experiment, number, "{message:02X?}");
                    by_other.experiment = experiment;
                }
                assert_eq!(by_other, by_list, "{message:02X?} with {number}, port {port}");
            }
            match answer {
                Ok(()) if is_asking => asked += 1,
                Ok(()) => others += 1,
                Err(_) => refused += 1,
            }
        }
    }
    println!("{asked} askings, {others} other accepted messages, {refused} refused ones");
    assert!(asked >= 400 && others >= 2000 && refused >= 800);
}

/// What the log reader prints, without the totals.
fn lines(log: &[u8]) -> Vec<LogLine> {
    let mut output = Vec::new();
    read_log(log, &mut output).expect("reading from memory");
    let text = String::from_utf8(output).expect("lines are text");
    log_lines(log, &text)
}

/// The logs that are made.
fn logs() -> Vec<Vec<u8>> {
    let mut logs = vec![Vec::new()];
    hour_log(&mut logs[0]).expect("writing to memory");
    for seed in 300..306 {
        let [mut bench, mut every] = [Vec::new(), Vec::new()];
        bench_log(seed, 5000, &mut bench).expect("writing to memory");
        every_log(seed, 5000, &mut every).expect("writing to memory");
        logs.extend([bench, every]);
    }
    logs
}

/// Where every number of a log is 0, every value's is. Apart from the numbers the lines are the same.
#[test]
fn a_log_without_numbers_prints_none() {
    let [mut values, mut with_number] = [0, 0];
    for log in logs() {
        let mut without = log.clone();
        for record in without.chunks_exact_mut(LOG_RECORD) {
            record[6..8].fill(0);
        }
        let [mut lines, without] = [lines(&log), lines(&without)];
        for value in lines.iter_mut().filter_map(|line| line.value.as_mut()) {
            values += 1;
            with_number += u64::from(value.experiment != 0);
            value.experiment = 0;
        }
        assert!(lines == without, "lines differ in more than the number");
    }
    println!("{values} values, {with_number} with a number");
    assert!(values >= 30_000 && with_number >= 10_000);
}

/// With other numbers a log prints the same lines, but for the number of values in state 2.
#[test]
fn numbers_change_values_in_state_2_alone() {
    let mut random = Random::new(400);
    let [mut in_state_2, mut others, mut changed] = [0, 0, 0];
    for log in logs() {
        let mut other = log.clone();
        for record in other.chunks_exact_mut(LOG_RECORD) {
            record[6..8].copy_from_slice(&experiment(&mut random).to_le_bytes());
        }
        let [lines, other] = [lines(&log), lines(&other)];
        assert_eq!(lines.len(), other.len());
        for (line, mut other) in lines.into_iter().zip(other) {
            if let (Some(value), Some(other)) = (&line.value, &mut other.value) {
                if value.state == 2 {
                    in_state_2 += 1;
                    changed += u64::from(value.experiment != other.experiment);
                    other.experiment = value.experiment;
                } else {
                    others += 1;
                    assert_eq!(value.experiment, 0, "{line:?}");
                }
            }
            assert_eq!(line, other);
        }
    }
    println!("{in_state_2} values in state 2, {changed} with another number, {others} others");
    assert!(changed >= 10_000 && others >= 1000);
}
