//! The table and the reader without a table agree after every message of many lists. The seeds are fixed.

use std::collections::BTreeSet;

use yardstick::traffic::{Scene, Traffic};
use yardstick::{CombinedTally, ExperimentTally, MessageList, Offered, Refusal, Table, Value, Way};

/// A list followed by both, with counts of the answers.
#[derive(Default)]
struct Both {
    table: Table,
    list: MessageList,
    /// How often each number came, 0 for acceptance.
    numbers: [u64; 24],
    /// How many datasets were negative.
    negative: u64,
    experiments: ExperimentTally,
    /// The ports of this list that went with an experiment number.
    gone: BTreeSet<u8>,
    combined: CombinedTally,
    /// Those that went while they were combined.
    combined_gone: BTreeSet<u8>,
}

impl Both {
    fn start(&mut self) {
        self.table = Table::default();
        self.list = MessageList::default();
        self.gone.clear();
        self.combined_gone.clear();
    }

    fn count<T>(&mut self, answer: Result<T, Refusal>) {
        let number = answer.err().map_or(0, |refusal| refusal.number);
        self.numbers[usize::from(number)] += 1;
    }

    fn values(&mut self, way: Way, message: &[u8]) {
        let answer = self.table.values(way, message);
        let by_list = self.list.values(way, message);
        assert_eq!(by_list, answer, "values of {message:02X?} {way:?}");
        // They are the datasets that are handed out one by one.
        match answer {
            Ok(datasets) => {
                for (number, &dataset) in datasets.iter().enumerate() {
                    assert_eq!(self.table.hand_out(way, message, number), Ok(dataset));
                }
                let next = self.table.hand_out(way, message, datasets.len());
                assert_eq!(next, Err(Refusal::NO_DATASET));
            }
            Err(Refusal::NOT_FINITE) => {
                let refused = |number| self.table.hand_out(way, message, number) == Err(Refusal::NOT_FINITE);
                assert!((0..16).any(refused), "values of {message:02X?} {way:?}");
            }
            Err(refusal) => assert_eq!(self.table.hand_out(way, message, 0), Err(refusal)),
        }
    }

    fn hand_out(&mut self, way: Way, message: &[u8], number: usize) {
        let answer = self.table.hand_out(way, message, number);
        let by_list = self.list.hand_out(way, message, number);
        assert_eq!(by_list, answer, "dataset {number} of {message:02X?} {way:?}");
        self.count(answer);
        if let Ok(dataset) = answer {
            self.negative += u64::from(matches!(dataset.value, Value::Whole(..0)));
            self.experiments.count_handed_out(&self.table, &dataset);
        }
    }

    fn offer(&mut self, way: Way, message: &[u8], experiment: u16) {
        for number in [0, 1, 15] {
            self.hand_out(way, message, number);
        }
        self.values(way, message);
        let before = self.table.clone();
        let answer = self.table.offer(way, message, experiment);
        let by_list = self.list.push(way, message, experiment);
        assert_eq!(by_list, answer, "{message:02X?} {way:?}");
        self.count(answer);
        let offered = Offered {
            before: &before,
            after: &self.table,
            message,
            experiment,
            answer,
        };
        self.experiments.count_offered(&mut self.gone, &offered);
        self.combined.count(&mut self.combined_gone, &offered);
    }

    fn compare_ports(&self, ports: impl Iterator<Item = u8>) {
        let mut present: Vec<u8> = self.table.ports().collect();
        present.sort_unstable();
        assert!(self.list.ports().eq(present), "the ports present");
        for port in ports {
            assert_eq!(self.list.port(port), self.table.port(port), "port {port}");
            for mode in 0..=16 {
                let format = self.table.format(port, mode);
                assert_eq!(self.list.format(port, mode), format, "port {port}, mode {mode}");
            }
        }
    }

    fn expect_often(&self, name: &str, least: u64) {
        println!(
            "{name}: {:?}, {} negative datasets\nexperiments: {}\ncombined ports: {}",
            self.numbers, self.negative, self.experiments, self.combined
        );
        for number in (10..=18).chain(20..=22) {
            let seen = self.numbers[number];
            assert!(seen >= least, "{number} came {seen} times, not {least}");
        }
        assert!(
            self.numbers[1..=7].iter().all(|&seen| seen >= 50),
            "a refusal of reading is rare"
        );
        assert!(self.negative >= least, "{} negative datasets", self.negative);
    }
}

#[test]
fn short_lists() {
    let mut both = Both::default();
    for seed in 0..480 {
        both.start();
        let mut traffic = Traffic::new(seed, Scene::ALL[seed as usize % Scene::ALL.len()]);
        for _ in 0..60 {
            let (way, message, experiment) = traffic.next(&both.table);
            both.offer(way, &message, experiment);
            both.compare_ports(0..=255);
        }
    }
    both.expect_often("short lists", 100);
    both.experiments.expect(100);
    both.combined.expect(5);
}

#[test]
fn long_lists() {
    let mut both = Both::default();
    for seed in 1000..1048 {
        both.start();
        let mut traffic = Traffic::new(seed, Scene::ALL[seed as usize % Scene::ALL.len()]);
        for step in 0..800 {
            let (way, message, experiment) = traffic.next(&both.table);
            both.offer(way, &message, experiment);
            let (way, message) = traffic.value(&both.table);
            both.hand_out(way, &message, step % 3);
            both.values(way, &message);
            if step % 50 == 0 {
                both.compare_ports(0..=255);
            }
        }
    }
    both.expect_often("long lists", 1000);
    both.experiments.expect(300);
    both.combined.expect(30);
}

/// Lists about few ports that are combined, with everything compared after every message.
#[test]
fn combined_lists() {
    let mut both = Both::default();
    for seed in 2000..2120 {
        both.start();
        let mut traffic = Traffic::new(seed, Scene::Combined);
        for _ in 0..150 {
            let (way, message, experiment) = traffic.next(&both.table);
            both.offer(way, &message, experiment);
            let (way, message) = traffic.value(&both.table);
            both.values(way, &message);
            let present: Vec<u8> = both.table.ports().collect();
            both.compare_ports(present.into_iter());
        }
    }
    println!("combined lists: {}", both.combined);
    both.combined.expect(100);
}
