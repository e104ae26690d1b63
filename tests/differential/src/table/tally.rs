use std::collections::BTreeSet;
use std::fmt;

use yardstick::{Answered, CombinedTally, Dataset, ExperimentTally, Offered, Port, Refusal, Table, Value, Wiring};

/// How many numbers answers have: 0 for acceptance and the refusals.
const NUMBERS: usize = 24;

/// Counts what was compared.
#[derive(Default)]
pub struct TableTally {
    offered: [u64; NUMBERS],
    handed_out: [u64; NUMBERS],
    /// Answers to values as a whole.
    whole: [u64; NUMBERS],
    /// Values that were handed out as a whole, by how many datasets they have.
    by_datasets: [u64; 17],
    /// Lists of ports, by how many they have.
    by_ports: [u64; 17],
    /// Whole numbers that aren't negative, negative ones, and floats.
    values: [u64; 3],
    /// Ports that were absent, unjoined, joined, virtual.
    wirings: [u64; 4],
    states: [u64; 4],
    formats: u64,
    /// Ports that are combined.
    combined_ports: u64,
    /// Ports with an experiment number other than 0, by their state.
    ports_with_number: [u64; 4],
    experiments: ExperimentTally,
    combined: CombinedTally,
}

impl TableTally {
    /// Counts the answer to an offered message.
    pub fn count_offered(&mut self, answer: Result<(), Refusal>) {
        self.offered[number(answer)] += 1;
    }

    /// Counts the answer to a dataset that was asked for.
    pub fn count_handed_out<T>(&mut self, answer: Result<T, Refusal>) {
        self.handed_out[number(answer)] += 1;
    }

    /// Counts the answer to a value that was asked for as a whole.
    pub fn count_whole(&mut self, answer: Result<usize, Refusal>) {
        if let Ok(datasets) = answer {
            self.by_datasets[datasets] += 1;
        }
        self.whole[number(answer)] += 1;
    }

    /// Counts a list of the ports that are present.
    pub fn count_ports(&mut self, ports: usize) {
        self.by_ports[ports] += 1;
    }

    /// Counts the sign and the experiment number of a dataset that was handed out by a table.
    pub fn count_dataset(&mut self, table: &Table, dataset: &Dataset) {
        let value = match dataset.value {
            Value::Whole(0..) => 0,
            Value::Whole(_) => 1,
            Value::Float(_) => 2,
        };
        self.values[value] += 1;
        self.experiments.count_handed_out(table, dataset);
    }

    /// Counts the experiment number of an offered message. `gone` belongs to the list of messages.
    pub fn count_offered_experiment(&mut self, gone: &mut BTreeSet<u8>, offered: &Offered) {
        self.experiments.count_offered(gone, offered);
    }

    /// Counts what an offered message shows of combined ports. `gone` belongs to the list of messages.
    pub fn count_offered_combined(&mut self, gone: &mut BTreeSet<u8>, offered: &Offered) {
        self.combined.count(gone, offered);
    }

    /// Counts a port.
    pub fn count_port(&mut self, port: Option<Port>) {
        let Some(port) = port else {
            self.wirings[0] += 1;
            return;
        };
        let wiring = match port.wiring {
            Wiring::Unjoined => 1,
            Wiring::Joined { .. } => 2,
            Wiring::Virtual { .. } => 3,
        };
        self.wirings[wiring] += 1;
        let state = usize::from(port.state.number());
        self.states[state] += 1;
        self.ports_with_number[state] += u64::from(port.experiment != 0);
        self.combined_ports += u64::from(matches!(port.answered, Some(Answered::Combined { .. })));
    }

    /// Counts a known format.
    pub fn count_format(&mut self) {
        self.formats += 1;
    }

    /// Panics unless each number came at least `least` times for an offered message, 0 for acceptance.
    pub fn expect_offered(&self, numbers: impl IntoIterator<Item = usize>, least: u64) {
        for number in numbers {
            let seen = self.offered[number];
            assert!(seen >= least, "{number} was offered {seen} times, not {least}\n{self}");
        }
    }

    /// Panics unless each number came at least `least` times for a dataset, 0 for one that was handed out.
    pub fn expect_handed_out(&self, numbers: impl IntoIterator<Item = usize>, least: u64) {
        for number in numbers {
            let seen = self.handed_out[number];
            assert!(
                seen >= least,
                "{number} was handed out {seen} times, not {least}\n{self}"
            );
        }
    }

    /// Panics unless each number came at least `least` times for a value as a whole, 0 for one that was handed out.
    pub fn expect_whole(&self, numbers: impl IntoIterator<Item = usize>, least: u64) {
        for number in numbers {
            let seen = self.whole[number];
            assert!(
                seen >= least,
                "{number} came {seen} times for whole values, not {least}\n{self}"
            );
        }
    }

    /// Panics unless values of every number of datasets were handed out as a whole at least `least` times.
    pub fn expect_every_number_of_datasets(&self, least: u64) {
        for (datasets, &seen) in self.by_datasets.iter().enumerate().skip(1) {
            assert!(
                seen >= least,
                "{datasets} datasets came {seen} times, not {least}\n{self}"
            );
        }
    }

    /// Panics unless lists of so many ports came at least `least` times.
    pub fn expect_lists_of_ports(&self, numbers: impl IntoIterator<Item = usize>, least: u64) {
        for ports in numbers {
            let seen = self.by_ports[ports];
            assert!(seen >= least, "{ports} ports came {seen} times, not {least}\n{self}");
        }
    }

    /// Panics unless whole numbers of each sign were handed out at least `least` times.
    pub fn expect_signs(&self, least: u64) {
        for &seen in &self.values[..2] {
            assert!(seen >= least, "a sign came {seen} times, not {least}\n{self}");
        }
    }

    /// Panics unless ports of every wiring and every state, and known formats, came at least `least` times, and combined
    /// ports.
    pub fn expect_ports(&self, least: u64) {
        let counts = self.wirings.iter().chain(&self.states);
        let counts = counts.chain([&self.formats, &self.combined_ports]);
        for &seen in counts {
            assert!(seen >= least, "a port's answer came {seen} times, not {least}\n{self}");
        }
    }

    /// Panics unless ports and values with an experiment number came at least `least` times in every state.
    pub fn expect_numbers(&self, least: u64) {
        for &seen in &self.ports_with_number[1..] {
            assert!(seen >= least, "a port's number came {seen} times, not {least}\n{self}");
        }
        self.experiments.expect_values(least);
    }

    /// Panics unless all that lists can show of experiment numbers came at least `least` times.
    pub fn expect_experiments(&self, least: u64) {
        self.expect_numbers(least);
        self.experiments.expect(least);
    }

    /// Panics unless all that lists can show of combined ports came at least `least` times.
    pub fn expect_combined(&self, least: u64) {
        self.combined.expect(least);
    }
}

fn number<T>(answer: Result<T, Refusal>) -> usize {
    answer.err().map_or(0, |refusal| refusal.number.into())
}

impl fmt::Display for TableTally {
    fn fmt(&self, f: &mut fmt::Formatter) -> fmt::Result {
        let sum = |counts: &[u64]| counts.iter().sum::<u64>();
        write!(f, "{} messages", sum(&self.offered))?;
        for (name, counts) in [
            ("offered", &self.offered[..]),
            ("handed out", &self.handed_out),
            ("values as a whole", &self.whole),
            ("their datasets", &self.by_datasets),
            ("lists of ports", &self.by_ports),
        ] {
            if sum(counts) > 0 {
                write!(f, "\n{name}")?;
            }
            for (number, seen) in counts.iter().enumerate().filter(|(_, &seen)| seen > 0) {
                write!(f, " {number}:{seen}")?;
            }
        }
        if sum(&self.values) > 0 {
            let [others, negative, floats] = self.values;
            write!(
                f,
                "\nwhole numbers: negative {negative}, others {others}; floats {floats}"
            )?;
        }
        if sum(&self.wirings) > 0 {
            let [absent, unjoined, joined, virtual_ports] = self.wirings;
            write!(
                f,
                "\nports: absent {absent}, unjoined {unjoined}, joined {joined}, virtual {virtual_ports}; states {:?}, \
                 with a number {:?}; combined {}; formats {}",
                self.states, self.ports_with_number, self.combined_ports, self.formats
            )?;
        }
        if !self.experiments.is_empty() {
            write!(f, "\nexperiments: {}", self.experiments)?;
        }
        if !self.combined.is_empty() {
            write!(f, "\ncombined ports: {}", self.combined)?;
        }
        Ok(())
    }
}
