use super::compose;
use super::damage::damage;
use super::experiment::experiment;
use super::float::float;
use super::plausible::plausible;
use super::scene::{Scene, Sort};
use crate::answer::{Answered, Asked, List, Port, Setup, State, Wiring};
use crate::form::Form;
use crate::random::Random;
use crate::table::Table;
use crate::way::Way;

/// The modes that most messages name.
const MODES: [u8; 4] = [0, 1, 2, 15];

/// Sub commands that leave the list alone.
const OTHER_SUBS: [u64; 4] = [2, 3, 4, 6];

/// The sorts of messages that tell one port something.
const TOLD: [Sort; 9] = [
    Sort::Format,
    Sort::Ask,
    Sort::RefusedAsk,
    Sort::Answer,
    Sort::List,
    Sort::RefusedList,
    Sort::CombinedSetup,
    Sort::CombinedAnswer,
    Sort::Information,
];

/// Deltas, of which two may differ in any byte.
const DELTAS: [u32; 7] = [0, 1, 5, 0x100, 0x1_0005, 0x8000_0001, u32::MAX];

/// A list of random messages, guided by what a table holds: most are accepted, and the others are refused for many
/// reasons. Each has an experiment number of its own, whatever it is. The table is the caller's, who offers it the
/// messages.
pub struct Traffic {
    random: Random,
    scene: Scene,
    ports: Vec<u8>,
}

impl Traffic {
    /// Starts a list. Equal seeds and tables give equal messages.
    pub fn new(seed: u64, scene: Scene) -> Traffic {
        let mut random = Random::new(seed);
        let mut ports = Vec::new();
        while ports.len() < scene.ports() {
            let port = random.between(0, 255) as u8;
            if !ports.contains(&port) {
                ports.push(port);
            }
        }
        Traffic { random, scene, ports }
    }

    /// Starts a list that goes on from a table with these ports, and names two more.
    pub fn over(seed: u64, present: impl Iterator<Item = u8>) -> Traffic {
        let mut random = Random::new(seed);
        let mut ports: Vec<u8> = present.collect();
        ports.extend([random.byte(), random.byte()]);
        Traffic {
            random,
            scene: Scene::Mixed,
            ports,
        }
    }

    /// The next message, with its way and its experiment number.
    pub fn next(&mut self, table: &Table) -> (Way, Vec<u8>, u16) {
        let sort = self.scene.sort(&mut self.random);
        let (mut way, mut message) = self.of_sort(sort, table);
        if !message.is_empty() && self.random.once_in(16) {
            damage(&mut self.random, &mut way, &mut message);
        }
        (way, message, experiment(&mut self.random))
    }

    /// A message to one port, with its way and its experiment number: a 41, 42, 44, 47 or 48, now and then another that
    /// changes nothing, or damaged.
    pub fn told(&mut self, table: &Table) -> (Way, Vec<u8>, u16) {
        let sort = self.random.one_of(&TOLD);
        let (mut way, mut message) = self.of_sort(sort, table);
        if self.random.once_in(12) {
            damage(&mut self.random, &mut way, &mut message);
        }
        (way, message, experiment(&mut self.random))
    }

    /// A 45 or, half of the time if there is a combined port, a 46, and its way.
    pub fn value(&mut self, table: &Table) -> (Way, Vec<u8>) {
        let has_combined = table.ports().any(|port| combination(table, port).is_some());
        if has_combined && self.random.once_in(2) {
            self.of_sort(Sort::CombinedValue, table)
        } else {
            self.of_sort(Sort::Value, table)
        }
    }

    fn of_sort(&mut self, sort: Sort, table: &Table) -> (Way, Vec<u8>) {
        match sort {
            Sort::Attach => self.attach(table),
            Sort::AttachVirtual => self.attach_virtual(table),
            Sort::Detach => {
                let port = self.present(table);
                up(Form::Detached, &[port.into(), 0], &[])
            }
            Sort::Format => self.format(table),
            Sort::Ask => self.ask(table),
            Sort::RefusedAsk => self.refused_ask(table),
            Sort::Answer => self.answer(table),
            Sort::Value => self.port_value(table),
            Sort::Setup => self.virtual_setup(table),
            Sort::Command => self.command(table),
            Sort::Feedback => self.feedback(table),
            Sort::List => self.list(table),
            Sort::RefusedList => self.refused_list(table),
            Sort::CombinedSetup => {
                let values = [self.present(table).into(), self.random.one_of(&OTHER_SUBS)];
                (Way::Down, compose(Way::Down, Form::CombinedSetup, &values, &[]))
            }
            Sort::CombinedAnswer => self.combined_answer(table),
            Sort::CombinedValue => self.combined_value_or_before(table),
            Sort::Information => self.information(table),
            Sort::Notice => {
                let action = self.random.one_of(&[0x30, 0x31, 0x32]);
                up(Form::HubAction, &[action], &[])
            }
            Sort::Any => {
                let mut message = Vec::new();
                let way = plausible(&mut self.random, &mut message);
                (way, message)
            }
        }
    }

    fn attach(&mut self, table: &Table) -> (Way, Vec<u8>) {
        let port = self.absent(table);
        let device = self.device();
        let [hardware, software] = [0, 0].map(|_: u64| self.random.number() as i32 as u64);
        up(Form::Attached, &[port.into(), 1, device, hardware, software], &[])
    }

    fn attach_virtual(&mut self, table: &Table) -> (Way, Vec<u8>) {
        let port = self.absent(table);
        let device = self.device();
        let [port_a, port_b] = self.pair(table);
        let values = [port.into(), 2, device, port_a.into(), port_b.into()];
        up(Form::AttachedVirtual, &values, &[])
    }

    /// A value format, rather one that is missing.
    fn format(&mut self, table: &Table) -> (Way, Vec<u8>) {
        let port = self.rather(table, |port| {
            let is_missing = |&mode: &u8| table.format(port, mode).is_none();
            modes(table, port).iter().any(is_missing)
        });
        let mode = self.mode_of(table, port);
        let datasets = match self.random.below(4) {
            0 => self.random.between(1, 16),
            _ => self.random.between(1, 3),
        };
        let kind = self.random.below(4);
        let [figures, decimals] = [self.random.byte(), self.random.byte()].map(u64::from);
        let values = [
            port.into(),
            mode.into(),
            0x80,
            datasets as u64,
            kind as u64,
            figures,
            decimals,
        ];
        up(Form::ValueFormat, &values, &[])
    }

    fn ask(&mut self, table: &Table) -> (Way, Vec<u8>) {
        let port = self.present(table);
        let setup = self.any_setup();
        let message = compose(Way::Down, Form::InputFormatSetup, &setup_values(port, setup), &[]);
        (Way::Down, message)
    }

    /// A 41 that is refused: mostly to a port that was asked something, and with one thing wrong; or to an absent port.
    fn refused_ask(&mut self, table: &Table) -> (Way, Vec<u8>) {
        let port = self.rather(table, |port| table.port(port).is_some_and(|it| it.asked.is_some()));
        let setup = self.any_setup();
        let mut way = Way::Down;
        let mut message = compose(way, Form::InputFormatSetup, &setup_values(port, setup), &[]);
        match self.random.below(6) {
            0 => message[4] = self.random.between(16, 255) as u8,
            1 => message[9] = self.random.between(2, 255) as u8,
            2 => {
                message.pop();
                message[0] -= 1;
            }
            3 => {
                message.push(0);
                message[0] += 1;
            }
            4 => way = Way::Up,
            _ => message[3] = self.absent(table),
        }
        (way, message)
    }

    /// A 47, rather one that is due: as asked, with one field other, or any.
    fn answer(&mut self, table: &Table) -> (Way, Vec<u8>) {
        let port = self.rather(table, |port| {
            table.port(port).is_some_and(|it| it.state == State::Unanswered)
        });
        let other = self.any_setup();
        let mut setup = match table.port(port).and_then(|it| it.asked) {
            Some(Asked::Single(setup)) => setup,
            Some(Asked::List) | None => other,
        };
        match self.random.below(12) {
            0 => setup.mode = other.mode,
            1 => setup.delta = other.delta,
            2 => setup.delta = setup.delta.wrapping_add(1),
            3 => setup.notify = !setup.notify,
            4 => setup = other,
            _ => {}
        }
        up(Form::InputFormat, &setup_values(port, setup), &[])
    }

    /// A 45, rather one of a port whose format is known, and mostly by that format.
    fn port_value(&mut self, table: &Table) -> (Way, Vec<u8>) {
        let format = |port| mode(table, port).and_then(|mode| table.format(port, mode));
        let port = self.rather(table, |port| format(port).is_some());
        let bytes = match format(port) {
            Some(format) => self.value_bytes(format.datasets, format.kind),
            None => {
                let [datasets, kind] = [self.random.between(1, 4), self.random.below(4)];
                self.value_bytes(datasets as u8, kind as u8)
            }
        };
        up(Form::PortValue, &[port.into()], &bytes)
    }

    /// A 42 with sub command 1: mostly few entries, of modes that have a format and of those that other messages name.
    fn list(&mut self, table: &Table) -> (Way, Vec<u8>) {
        let port = self.present(table);
        let entries = self.entries(table, port);
        (Way::Down, self.list_message(port, &entries))
    }

    /// A 42 with sub command 1 that is refused: mostly to a port that was asked something, and with one thing wrong; or
    /// to an absent port.
    fn refused_list(&mut self, table: &Table) -> (Way, Vec<u8>) {
        let port = self.rather(table, |port| table.port(port).is_some_and(|it| it.asked.is_some()));
        let mut entries = self.entries(table, port);
        let mut way = Way::Down;
        let mut message = self.list_message(port, &entries);
        match self.random.below(6) {
            // An entry twice.
            0..=2 => {
                let entry = self.random.one_of(&entries);
                let place = self.random.below(entries.len() + 1);
                entries.insert(place, entry);
                message.truncate(6);
                message.extend(entries);
                message[0] = message.len() as u8;
            }
            3 => message[4] = self.random.one_of(&[0, 5, 7, 255]),
            4 => way = Way::Up,
            _ => message[3] = self.absent(table),
        }
        (way, message)
    }

    /// The bytes of a 42 with sub command 1.
    fn list_message(&mut self, port: u8, entries: &[u8]) -> Vec<u8> {
        let combination = self.random.byte().into();
        compose(Way::Down, Form::ModeDatasets, &[port.into(), 1, combination], entries)
    }

    /// Entries of a list, all different.
    fn entries(&mut self, table: &Table, port: u8) -> Vec<u8> {
        let count = match self.random.below(6) {
            0 => self.random.between(1, List::MOST),
            _ => self.random.between(1, 4),
        };
        let mut entries = Vec::new();
        while entries.len() < count {
            let mode = match self.random.below(16) {
                0 => self.random.between(0, 15) as u8,
                _ => self.random.one_of(&MODES),
            };
            // Mostly one that the mode's format has.
            let datasets = table.format(port, mode).map_or(2, |format| format.datasets);
            let dataset = match self.random.below(12) {
                0 => self.random.between(0, 15),
                _ => self.random.below(datasets.into()),
            };
            let entry = mode << 4 | dataset as u8;
            // There may be no more of these.
            for entry in [entry, self.random.byte()] {
                if !entries.contains(&entry) {
                    entries.push(entry);
                    break;
                }
            }
        }
        entries
    }

    /// A 48, rather one that is due: with pointers to the whole list, to a part of it, or any.
    fn combined_answer(&mut self, table: &Table) -> (Way, Vec<u8>) {
        let list = |port| table.port(port).and_then(|it| it.list);
        let is_due = |port| table.port(port).is_some_and(|it| it.state == State::Unanswered);
        let port = if self.random.once_in(2) {
            self.rather(table, |port| list(port).is_some() && is_due(port))
        } else {
            self.rather(table, |port| list(port).is_some())
        };
        let entries = list(port).map_or(1, |list| list.entries().len());
        let whole = u16::MAX >> (List::MOST - entries);
        let any = self.random.number() as u16;
        let pointers = match self.random.below(16) {
            0 => 0,
            1 => whole << 1 | 1,
            2 => 1 << self.random.below(List::MOST),
            3 => any,
            4..=6 => whole & any,
            7 => whole >> 1,
            _ => whole,
        };
        let control = self.random.byte().into();
        up(Form::InputFormatCombined, &[port.into(), control, pointers.into()], &[])
    }

    /// A 46. If no port is combined yet, mostly what goes before it: a list, or a 48.
    fn combined_value_or_before(&mut self, table: &Table) -> (Way, Vec<u8>) {
        let ports: Vec<Port> = self.ports.iter().filter_map(|&port| table.port(port)).collect();
        let has_list = ports.iter().any(|port| port.list.is_some());
        let is_combined = |port: &Port| matches!(port.answered, Some(Answered::Combined { .. }));
        let has_combined = ports.iter().any(is_combined);
        if has_combined || self.random.once_in(4) {
            self.combined_value(table)
        } else if has_list {
            self.combined_answer(table)
        } else {
            self.list(table)
        }
    }

    /// A 46, rather one of a combined port, mostly with some of the pointers of its 48, and by the formats of its list.
    fn combined_value(&mut self, table: &Table) -> (Way, Vec<u8>) {
        let has_formats = |port| {
            let list = combination(table, port).map(|(_, list)| list);
            let is_known = |&entry: &u8| table.format(port, entry >> 4).is_some();
            list.is_some_and(|list| list.entries().iter().all(is_known))
        };
        let port = if self.random.once_in(2) {
            self.rather(table, has_formats)
        } else {
            self.rather(table, |port| combination(table, port).is_some())
        };
        let (sent, list) = combination(table, port).unwrap_or((3, List::new(&[0x00, 0x10])));
        let format = |entry: u8| table.format(port, entry >> 4);
        let mut pointers = match self.random.below(24) {
            0 => 0,
            1 => self.random.number() as u16,
            2 => sent ^ 1 << self.random.below(List::MOST),
            3..=11 => sent & self.random.number() as u16,
            _ => sent,
        };
        // Often only those that a format fits.
        if self.random.once_in(2) {
            for (index, &entry) in list.entries().iter().enumerate() {
                if format(entry).is_none_or(|it| entry & 0x0F >= it.datasets) {
                    pointers &= !(1 << index);
                }
            }
        }
        let mut bytes = Vec::new();
        for (index, &entry) in list.entries().iter().enumerate() {
            if pointers >> index & 1 == 1 {
                self.push_dataset(format(entry).map_or(0, |it| it.kind), &mut bytes);
            }
        }
        self.resize_value(&mut bytes, 121);
        up(Form::PortValueCombined, &[port.into(), pointers.into()], &bytes)
    }

    /// The bytes of a value, now and then some too few or too many.
    fn value_bytes(&mut self, datasets: u8, kind: u8) -> Vec<u8> {
        let mut bytes = Vec::new();
        for _ in 0..datasets {
            self.push_dataset(kind, &mut bytes);
        }
        self.resize_value(&mut bytes, 123);
        bytes
    }

    fn push_dataset(&mut self, kind: u8, bytes: &mut Vec<u8>) {
        let number = float(&mut self.random).to_le_bytes();
        match kind {
            0 => bytes.extend(&number[..1]),
            1 => bytes.extend(&number[2..]),
            _ => bytes.extend(number),
        }
    }

    /// Changes how many bytes a value has now and then. There is one at least, and so many at most.
    fn resize_value(&mut self, bytes: &mut Vec<u8>, most: usize) {
        let size = bytes.len();
        let size = match self.random.below(32) {
            0 => size + 1,
            1 => size.saturating_sub(1),
            2 => size * 2,
            3 => size / 2,
            4 => self.random.between(1, most),
            _ => size,
        };
        bytes.resize(size.clamp(1, most), 0x5A);
    }

    fn virtual_setup(&mut self, table: &Table) -> (Way, Vec<u8>) {
        let (form, values) = if self.random.once_in(2) {
            let [port_a, port_b] = self.pair(table);
            (Form::VirtualConnect, vec![1, port_a.into(), port_b.into()])
        } else {
            let port = self.present(table);
            (Form::VirtualDisconnect, vec![0, port.into()])
        };
        (Way::Down, compose(Way::Down, form, &values, &[]))
    }

    /// A command for motors, mostly a good one, to a port of any sort, rather a virtual one.
    fn command(&mut self, table: &Table) -> (Way, Vec<u8>) {
        let wiring = |port| table.port(port).map(|it| it.wiring);
        let port = match self.random.below(8) {
            0..=3 => self.rather(table, |port| matches!(wiring(port), Some(Wiring::Virtual { .. }))),
            4 => self.rather(table, |port| matches!(wiring(port), Some(Wiring::Joined { .. }))),
            5 | 6 => self.present(table),
            _ => self.absent(table),
        };
        let common = |sub| [port.into(), 0x11, sub];
        let [position_1, position_2] = [0, 0].map(|_: u64| self.random.number() as i32 as u64);
        let end = [self.random.between(0, 100) as u64, 126, 3];
        let speed = self.random.between(1, 100) as u64;
        let (form, values) = match self.random.below(4) {
            0 => {
                let degrees = self.random.between(0, 10_000_000) as u64;
                let turn = [degrees, speed, speed.wrapping_neg()];
                (Form::StartSpeedForDegrees, [common(0x0C), turn, end].concat())
            }
            1 => {
                let values = [&common(0x0D)[..], &[position_1, speed], &end].concat();
                (Form::GotoAbsolutePosition, values)
            }
            2 => {
                let values = [common(0x0E), [position_1, position_2, speed], end].concat();
                (Form::GotoAbsolutePositions, values)
            }
            _ => {
                let values = [&common(0x14)[..], &[position_1, position_2]].concat();
                (Form::PresetEncoders, values)
            }
        };
        (Way::Down, compose(Way::Down, form, &values, &[]))
    }

    /// Feedback about one or more ports, most of them present.
    fn feedback(&mut self, table: &Table) -> (Way, Vec<u8>) {
        let pairs = match self.random.below(16) {
            0 => self.random.between(1, 62),
            _ => self.random.between(1, 3),
        };
        let absent = self.random.once_in(4).then(|| self.random.below(pairs));
        let mut bytes = Vec::new();
        for pair in 0..pairs {
            let port = if absent == Some(pair) {
                self.absent(table)
            } else {
                self.one_present(table)
            };
            bytes.extend([port, self.random.between(0, 0x1F) as u8]);
        }
        up(Form::OutputFeedback, &[], &bytes)
    }

    /// A port that is present, if there is one.
    fn one_present(&mut self, table: &Table) -> u8 {
        let ports: Vec<u8> = table.ports().collect();
        if ports.is_empty() {
            self.random.one_of(&self.ports)
        } else {
            self.random.one_of(&ports)
        }
    }

    /// Messages on a port that change nothing.
    fn information(&mut self, table: &Table) -> (Way, Vec<u8>) {
        let port = u64::from(self.present(table));
        let mode = u64::from(self.random.one_of(&MODES));
        let (form, values, open): (_, &[u64], &[u8]) = match self.random.below(9) {
            0 => (Form::PortInformationRequest, &[port, 1], &[]),
            1 => (Form::ModeInformationRequest, &[port, mode, 0x80], &[]),
            2 => (Form::PortModes, &[port, 1, 15, 4, 0xFF, 0xFF], &[]),
            3 => (Form::PortCombinations, &[port, 2, 1, 3, 0, 0, 0, 0, 0, 0, 0], &[]),
            4 => (Form::ModeText, &[port, mode, 0], b"POS"),
            5 => (Form::ModeRange, &[port, mode, 3, 0, 0x4348_0000], &[]),
            6 => (Form::ModeMapping, &[port, mode, 5, 0x4810], &[]),
            7 => (Form::ModeBias, &[port, mode, 7, 100], &[]),
            _ => (Form::ModeCapabilities, &[port, mode, 8, 1], &[]),
        };
        let down = matches!(form, Form::PortInformationRequest | Form::ModeInformationRequest);
        let way = if down { Way::Down } else { Way::Up };
        (way, compose(way, form, values, open))
    }

    /// A port that is present if there is one, or now and then any.
    fn present(&mut self, table: &Table) -> u8 {
        self.port_with(table, |port| port.is_some())
    }

    /// A port that isn't present, or now and then any.
    fn absent(&mut self, table: &Table) -> u8 {
        self.port_with(table, |port| port.is_none())
    }

    /// Two ports that may be joined if there are such, or now and then any.
    fn pair(&mut self, table: &Table) -> [u8; 2] {
        let is_free = |port: Option<Port>| port.is_some_and(|it| it.wiring == Wiring::Unjoined);
        let port_a = self.port_with(table, is_free);
        let mut port_b = self.port_with(table, is_free);
        if port_a == port_b && !self.random.once_in(8) {
            port_b = self.port_with(table, is_free);
        }
        [port_a, port_b]
    }

    /// One of the list's ports that is as wanted, if there is one; now and then any.
    fn port_with(&mut self, table: &Table, wanted: impl Fn(Option<Port>) -> bool) -> u8 {
        match self.random.below(64) {
            0 => return self.random.byte(),
            1..=5 => return self.random.one_of(&self.ports),
            _ => {}
        }
        let such: Vec<u8> = self
            .ports
            .iter()
            .copied()
            .filter(|&port| wanted(table.port(port)))
            .collect();
        if such.is_empty() {
            self.random.one_of(&self.ports)
        } else {
            self.random.one_of(&such)
        }
    }

    /// One of the list's ports that is as wanted; if there is none, and now and then, one that is present.
    fn rather(&mut self, table: &Table, wanted: impl Fn(u8) -> bool) -> u8 {
        let such: Vec<u8> = self.ports.iter().copied().filter(|&port| wanted(port)).collect();
        if such.is_empty() || self.random.once_in(6) {
            self.present(table)
        } else {
            self.random.one_of(&such)
        }
    }

    /// A mode: often one that the port is in.
    fn mode_of(&mut self, table: &Table, port: u8) -> u8 {
        match (self.random.below(8), &modes(table, port)[..]) {
            (0, _) => self.random.between(0, 15) as u8,
            (1..=4, modes @ [_, ..]) => self.random.one_of(modes),
            _ => self.random.one_of(&MODES),
        }
    }

    fn any_setup(&mut self) -> Setup {
        let mode = match self.random.below(8) {
            0 => self.random.between(0, 15) as u8,
            _ => self.random.one_of(&MODES),
        };
        Setup {
            mode,
            delta: self.random.one_of(&DELTAS),
            notify: self.random.once_in(2),
        }
    }

    fn device(&mut self) -> u64 {
        self.random.between(0, 0xFFFF) as u64
    }
}

/// The mode that a port is in.
fn mode(table: &Table, port: u8) -> Option<u8> {
    table.port(port)?.answered?.mode()
}

/// The pointers and the list of a combined port.
fn combination(table: &Table, port: u8) -> Option<(u16, List)> {
    match table.port(port)?.answered? {
        Answered::Combined { pointers, list } => Some((pointers, list)),
        Answered::Single(_) => None,
    }
}

/// The mode that a port is in or, of a combined port, the modes of its list.
fn modes(table: &Table, port: u8) -> Vec<u8> {
    match table.port(port).and_then(|it| it.answered) {
        Some(Answered::Single(setup)) => vec![setup.mode],
        Some(Answered::Combined { list, .. }) => list.entries().iter().map(|entry| entry >> 4).collect(),
        None => Vec::new(),
    }
}

/// A message that goes up.
fn up(form: Form, values: &[u64], open: &[u8]) -> (Way, Vec<u8>) {
    (Way::Up, compose(Way::Up, form, values, open))
}

fn setup_values(port: u8, setup: Setup) -> [u64; 4] {
    [port.into(), setup.mode.into(), setup.delta.into(), setup.notify.into()]
}
