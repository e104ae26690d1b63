use std::collections::BTreeSet;
use std::fmt;

use crate::answer::{Dataset, State};
use crate::refusal::Refusal;
use crate::table::Table;

/// A message that was offered, with the tables before and after it.
pub struct Offered<'a> {
    /// The table before it.
    pub before: &'a Table,
    /// The table after it.
    pub after: &'a Table,
    /// The message.
    pub message: &'a [u8],
    /// The experiment number that came with it.
    pub experiment: u16,
    /// The answer.
    pub answer: Result<(), Refusal>,
}

impl Offered<'_> {
    /// Whether it is a 41, or a 42 with sub command 1.
    fn is_asking(&self) -> bool {
        matches!(self.message, [_, _, 0x41, ..] | [_, _, 0x42, _, 1, ..])
    }

    /// The number of the port that the message names, none if it isn't present or was asked nothing.
    fn asked_before(&self) -> Option<u16> {
        let port = self.before.port(*self.message.get(3)?)?;
        port.asked.map(|_| port.experiment)
    }
}

/// Counts what lists of messages show of experiment numbers, so that a test can tell that it has seen enough.
#[derive(Clone, Default)]
pub struct ExperimentTally {
    /// Values in state 2 that carry another number than 0.
    as_asked: u64,
    /// Values in state 1, of ports whose number isn't 0.
    unanswered: u64,
    /// Values in state 3, of ports whose number isn't 0.
    otherwise: u64,
    /// Accepted askings of ports that were asked before, with another number.
    asked_anew: u64,
    /// Refused askings that name a port that was asked before, with another number.
    refused: u64,
    /// Refused askings that name an absent port.
    refused_absent: u64,
    /// Other accepted messages that name a port that was asked before, with another number.
    others: u64,
    /// Attachments of ports that went with a number that wasn't 0.
    attached_again: u64,
}

impl ExperimentTally {
    /// Counts an offered message. `gone` are the ports that went with a number other than 0, a set that belongs to the
    /// list of messages.
    pub fn count_offered(&mut self, gone: &mut BTreeSet<u8>, offered: &Offered) {
        let differs = offered
            .asked_before()
            .is_some_and(|number| number != offered.experiment);
        match (offered.is_asking(), offered.answer) {
            (true, Ok(())) => self.asked_anew += u64::from(differs),
            (true, Err(Refusal::PORT_ABSENT)) => self.refused_absent += 1,
            (true, Err(_)) => self.refused += u64::from(differs),
            (false, Ok(())) => self.others += u64::from(differs),
            (false, Err(_)) => {}
        }
        for port in offered.after.ports() {
            if offered.before.port(port).is_none() && gone.remove(&port) {
                self.attached_again += 1;
            }
        }
        let had_number = |port: &u8| offered.before.port(*port).is_some_and(|it| it.experiment != 0);
        let went = |port: &u8| offered.after.port(*port).is_none();
        gone.extend(offered.before.ports().filter(had_number).filter(went));
    }

    /// Counts a dataset that was handed out by a table.
    pub fn count_handed_out(&mut self, table: &Table, dataset: &Dataset) {
        let has_number = table.port(dataset.port).is_some_and(|it| it.experiment != 0);
        match dataset.state {
            State::NothingAsked => {}
            State::Unanswered => self.unanswered += u64::from(has_number),
            State::AsAsked => self.as_asked += u64::from(dataset.experiment != 0),
            State::Otherwise => self.otherwise += u64::from(has_number),
        }
    }

    /// Panics unless each of these came at least `least` times.
    pub fn expect(&self, least: u64) {
        self.expect_counts(&self.counts(), least);
    }

    /// Panics unless values in states 1, 2 and 3 of ports with a number came at least `least` times each.
    pub fn expect_values(&self, least: u64) {
        self.expect_counts(&self.counts()[..3], least);
    }

    /// Whether nothing was counted.
    pub fn is_empty(&self) -> bool {
        self.counts().iter().all(|&(_, seen)| seen == 0)
    }

    fn expect_counts(&self, counts: &[(&str, u64)], least: u64) {
        for (name, seen) in counts {
            assert!(*seen >= least, "{name} came {seen} times, not {least}\n{self}");
        }
    }

    /// The values first.
    fn counts(&self) -> [(&'static str, u64); 8] {
        [
            ("values in state 2 with a number", self.as_asked),
            ("values in state 1 of ports with a number", self.unanswered),
            ("values in state 3 of ports with a number", self.otherwise),
            ("askings with another number", self.asked_anew),
            ("refused askings with another number", self.refused),
            ("refused askings of absent ports", self.refused_absent),
            ("other messages with another number", self.others),
            ("ports attached again that had a number", self.attached_again),
        ]
    }
}

impl fmt::Display for ExperimentTally {
    fn fmt(&self, f: &mut fmt::Formatter) -> fmt::Result {
        let counts = self.counts().map(|(name, seen)| format!("{name} {seen}"));
        write!(f, "{}", counts.join(", "))
    }
}
