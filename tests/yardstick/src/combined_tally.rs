use std::collections::{BTreeMap, BTreeSet};
use std::fmt;

use crate::answer::{Answered, Asked, Port, State};
use crate::experiment_tally::Offered;

/// Counts what lists of messages show of combined ports, so that a test can tell that it has seen enough.
#[derive(Clone, Default)]
pub struct CombinedTally {
    seen: BTreeMap<&'static str, u64>,
}

/// All that is counted.
const ALL: [&str; 33] = [
    "42, other sub command",
    "42, first list",
    "42, other list to a combined port",
    "42, other list to a single port",
    "42, list refused as 7",
    "42, list refused as 10",
    "41 to a combined port",
    "47 to a combined port",
    "47 after a list",
    "48 as asked",
    "48 with a part of the list",
    "48 after a 41",
    "48 to a combined port, with another list",
    "48 to a port that a 47 made single",
    "48 refused as 10",
    "48 refused as 21, no list",
    "48 refused as 21, no pointer",
    "48 refused as 21, a pointer past the list",
    "46 in state 1",
    "46 in state 2",
    "46 in state 3",
    "46 by a list that was replaced",
    "46 with some of the 48's pointers",
    "46 with values of two widths",
    "46 with a float among others",
    "46 refused as 10",
    "46 refused as 20",
    "46 refused as 21",
    "46 refused as 15",
    "46 refused as 17",
    "46 refused as 16",
    "45 refused as 14 by a combined port",
    "attached again after it was combined",
];

impl CombinedTally {
    /// Counts an offered message. `gone` are the ports that went while they were combined, a set that belongs to the
    /// list of messages.
    pub fn count(&mut self, gone: &mut BTreeSet<u8>, offered: &Offered) {
        let number = offered.answer.err().map_or(0, |refusal| refusal.number);
        if let [_, _, message_type, port, rest @ ..] = offered.message {
            let [before, after] = [offered.before, offered.after].map(|table| table.port(*port));
            match (message_type, number, before, after) {
                (0x41 | 0x47, 0, Some(before), Some(after)) => self.count_single(*message_type, &before, &after),
                (0x42, _, _, _) => self.count_setup(rest, number, before.as_ref()),
                (0x48, 0, Some(before), Some(after)) => self.count_answer(&before, &after),
                (0x48, _, _, _) => self.count_refused_answer(rest, number, before.as_ref()),
                (0x46, 0, Some(before), _) => self.count_value(offered, *port, rest, &before),
                (0x46, 10 | 15..=17 | 20 | 21, _, _) => self.add(&format!("46 refused as {number}")),
                (0x45, 14, Some(before), _) if combination(&before).is_some() => {
                    self.add("45 refused as 14 by a combined port");
                }
                _ => {}
            }
        }
        for port in offered.after.ports() {
            if offered.before.port(port).is_none() && gone.remove(&port) {
                self.add("attached again after it was combined");
            }
        }
        let was_combined = |port: &u8| offered.before.port(*port).is_some_and(|it| combination(&it).is_some());
        let went = |port: &u8| offered.after.port(*port).is_none();
        gone.extend(offered.before.ports().filter(was_combined).filter(went));
    }

    fn count_single(&mut self, message_type: u8, before: &Port, after: &Port) {
        if combination(before).is_some() {
            self.add(&format!("{message_type:02X} to a combined port"));
        }
        if message_type == 0x47 && after.asked == Some(Asked::List) {
            self.add("47 after a list");
        }
    }

    /// `rest` is what follows the port.
    fn count_setup(&mut self, rest: &[u8], number: u8, before: Option<&Port>) {
        match (rest, number, before) {
            ([2..=4 | 6], 0, _) => self.add("42, other sub command"),
            ([1, _, entries @ ..], 0, Some(before)) => match before.list {
                None => self.add("42, first list"),
                Some(list) if list.entries() == entries => {}
                Some(_) if combination(before).is_some() => self.add("42, other list to a combined port"),
                Some(_) => self.add("42, other list to a single port"),
            },
            ([1, ..], 7 | 10, _) => self.add(&format!("42, list refused as {number}")),
            _ => {}
        }
    }

    fn count_answer(&mut self, before: &Port, after: &Port) {
        match (after.state, after.asked) {
            (State::AsAsked, _) => self.add("48 as asked"),
            (_, Some(Asked::List)) => self.add("48 with a part of the list"),
            _ => self.add("48 after a 41"),
        }
        match before.answered {
            Some(Answered::Combined { list, .. }) if before.list != Some(list) => {
                self.add("48 to a combined port, with another list");
            }
            Some(Answered::Single(_)) if before.state != State::Unanswered => {
                self.add("48 to a port that a 47 made single");
            }
            _ => {}
        }
    }

    fn count_refused_answer(&mut self, rest: &[u8], number: u8, before: Option<&Port>) {
        match (rest, number, before.map(|it| it.list)) {
            (_, 10, _) => self.add("48 refused as 10"),
            (_, 21, Some(None)) => self.add("48 refused as 21, no list"),
            ([_, 0, 0], 21, _) => self.add("48 refused as 21, no pointer"),
            (_, 21, _) => self.add("48 refused as 21, a pointer past the list"),
            _ => {}
        }
    }

    fn count_value(&mut self, offered: &Offered, port: u8, rest: &[u8], before: &Port) {
        let Some((sent, list)) = combination(before) else {
            return;
        };
        self.add(&format!("46 in state {}", before.state.number()));
        if before.list.is_some_and(|kept| kept.entries() != list) {
            self.add("46 by a list that was replaced");
        }
        let pointers = u16::from_le_bytes([rest[0], rest[1]]);
        if pointers != sent {
            self.add("46 with some of the 48's pointers");
        }
        let pointed = list.iter().enumerate().filter(|(index, _)| pointers >> index & 1 == 1);
        let kinds: BTreeSet<u8> = pointed
            .filter_map(|(_, entry)| offered.before.format(port, entry >> 4))
            .map(|format| format.kind)
            .collect();
        let widths: BTreeSet<usize> = kinds.iter().map(|&kind| [1, 2, 4, 4][usize::from(kind)]).collect();
        if widths.len() > 1 {
            self.add("46 with values of two widths");
        }
        if kinds.len() > 1 && kinds.contains(&3) {
            self.add("46 with a float among others");
        }
    }

    fn add(&mut self, name: &str) {
        let name = ALL.into_iter().find(|it| *it == name);
        *self
            .seen
            .entry(name.expect("one of those that are counted"))
            .or_default() += 1;
    }

    /// Whether nothing was counted.
    pub fn is_empty(&self) -> bool {
        self.seen.is_empty()
    }

    /// Panics unless each of these came at least `least` times.
    pub fn expect(&self, least: u64) {
        for name in ALL {
            let seen = self.seen.get(name).copied().unwrap_or(0);
            assert!(seen >= least, "{name} came {seen} times, not {least}\n{self}");
        }
    }
}

/// The pointers and the list of a combined port.
fn combination(port: &Port) -> Option<(u16, &[u8])> {
    match &port.answered {
        Some(Answered::Combined { pointers, list }) => Some((*pointers, list.entries())),
        _ => None,
    }
}

impl fmt::Display for CombinedTally {
    fn fmt(&self, f: &mut fmt::Formatter) -> fmt::Result {
        let counts: Vec<String> = self.seen.iter().map(|(name, seen)| format!("{name}: {seen}")).collect();
        write!(f, "{}", counts.join("; "))
    }
}
