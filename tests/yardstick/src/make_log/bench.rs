use std::collections::VecDeque;

use super::devices::{Device, DEVICES, MOTOR_DEVICE};
use crate::form::Form;
use crate::log::{log_record, LOG_RECORD};
use crate::random::Random;
use crate::traffic::{compose, experiment};
use crate::way::Way;

/// The log of a bench.
pub(super) struct Bench {
    random: Random,
    time: u32,
    links: Vec<Link>,
    /// The number of the running experiment, which every record carries.
    experiment: u16,
    /// What comes next, each with its experiment number.
    queue: VecDeque<(Way, Vec<u8>, u16)>,
}

/// How a device stands.
struct Link {
    device: &'static Device,
    is_attached: bool,
    /// Which of its modes have a format that the hub has told.
    told: Vec<bool>,
    /// The index of its answered mode.
    mode: Option<usize>,
    /// The list that it sends by in place of a mode, and the pointers of its 48.
    combined: Option<(&'static [u8], u16)>,
    /// What it measures.
    level: i32,
}

impl Link {
    fn forget(&mut self) {
        self.is_attached = false;
        self.told.fill(false);
        self.mode = None;
        self.combined = None;
    }

    fn sends(&self) -> bool {
        self.mode.is_some() || self.combined.is_some()
    }
}

impl Bench {
    pub(super) fn new(seed: u64) -> Bench {
        let link = |device: &'static Device| Link {
            device,
            is_attached: false,
            told: vec![false; device.modes.len()],
            mode: None,
            combined: None,
            level: 0,
        };
        let mut random = Random::new(seed);
        let mut bench = Bench {
            experiment: experiment(&mut random),
            random,
            time: 0,
            links: DEVICES.iter().map(link).collect(),
            queue: VecDeque::new(),
        };
        bench.start();
        bench
    }

    /// The next record of the log.
    pub(super) fn next_record(&mut self) -> [u8; LOG_RECORD] {
        if self.queue.is_empty() {
            self.go_on();
        }
        let (way, message, experiment) = self.queue.pop_front().expect("something always comes next");
        self.time = self.time.wrapping_add(self.random.below(12) as u32);
        log_record(self.time, way, &message, experiment)
    }

    /// The hub starts: it tells its name and version, and what is attached to it.
    fn start(&mut self) {
        self.down(Form::PropertyCommand, &[1, 5]);
        self.up_open(Form::PropertyText, &[1, 6], b"Bench hub");
        self.down(Form::PropertyCommand, &[3, 5]);
        self.up(Form::PropertyVersion, &[3, 6, 0x1737_1510]);
        self.down(Form::PropertyCommand, &[6, 2]);
        self.up(Form::PropertyByte, &[6, 6, 100]);
        for index in 0..self.links.len() {
            self.attach(index);
        }
        for index in 0..self.links.len() {
            self.ask_and_set(index, 0);
        }
    }

    /// One thing happens. Mostly it is a value.
    fn go_on(&mut self) {
        match self.random.below(10_000) {
            0 => self.restart(),
            1..=5 => self.pull(),
            6..=50 => self.change_mode(),
            51..=60 => self.begin_experiment(),
            61..=90 => self.tell_about_hub(),
            91..=93 => self.spoil(),
            94..=123 => self.drive(),
            _ => {
                let index = self.any(Link::sends);
                self.value(index);
            }
        }
    }

    /// The hub disconnects, and starts anew.
    fn restart(&mut self) {
        let notice = self.random.one_of(&[0x30, 0x31]);
        self.up(Form::HubAction, &[notice]);
        self.links.iter_mut().for_each(Link::forget);
        self.start();
    }

    fn attach(&mut self, index: usize) {
        let Device {
            port, device, members, ..
        } = *self.links[index].device;
        let [port, device] = [port.into(), device.into()];
        match members {
            None => self.up(Form::Attached, &[port, 1, device, 0x1000_0000, 0x1000_0000]),
            Some([port_a, port_b]) => {
                self.up(Form::AttachedVirtual, &[port, 2, device, port_a.into(), port_b.into()]);
            }
        }
        self.links[index].is_attached = true;
    }

    /// An external device is pulled, and connected again after a while. Values come too late and too early.
    fn pull(&mut self) {
        let index = self.any(|link| link.device.external && link.is_attached);
        let port = self.links[index].device.port;
        let late = self.value_message(index);
        self.up(Form::Detached, &[port.into(), 0]);
        self.push_value(late.clone());
        self.links[index].forget();
        let pair = self.pair_of(port);
        if let Some((virtual_port, _)) = pair {
            self.links[virtual_port].forget();
        }
        for _ in 0..self.random.below(200) {
            let other = self.any(Link::sends);
            self.value(other);
        }
        self.attach(index);
        self.push_value(late);
        self.ask_and_set(index, 0);
        if let Some((virtual_port, [port_a, port_b])) = pair {
            self.down(Form::VirtualConnect, &[1, port_a.into(), port_b.into()]);
            self.attach(virtual_port);
            self.ask_and_set(virtual_port, 0);
        }
    }

    /// The virtual port that has a port as a member, and both members.
    fn pair_of(&self, port: u8) -> Option<(usize, [u8; 2])> {
        let members = |link: &Link| link.device.members.filter(|members| members.contains(&port));
        let mut links = self.links.iter().enumerate();
        links.find_map(|(index, link)| Some((index, members(link)?)))
    }

    /// The client asks what a port can do, and sets it to a mode.
    fn ask_and_set(&mut self, index: usize, mode: usize) {
        let device = self.links[index].device;
        let port = u64::from(device.port);
        if device.modes.is_empty() {
            return;
        }
        let modes = device.modes.iter().fold(0, |bits, &(number, ..)| bits | 1 << number);
        self.down(Form::PortInformationRequest, &[port, 1]);
        self.up(Form::PortModes, &[port, 1, 7, device.modes.len() as u64, modes, 0]);
        self.set(index, mode);
    }

    /// The next experiment begins: its number is another, and the client sets some ports to a mode.
    fn begin_experiment(&mut self) {
        self.experiment = self.experiment.wrapping_add(self.random.between(1, 300) as u16);
        for _ in 0..self.random.between(1, 4) {
            self.change_mode();
        }
    }

    fn change_mode(&mut self) {
        let index = self.any(|link| link.sends() && link.device.modes.len() > 1);
        let device = self.links[index].device;
        if !device.lists.is_empty() && self.random.once_in(2) {
            self.combine(index);
        } else {
            let mode = self.random.below(device.modes.len());
            self.set(index, mode);
        }
    }

    /// The client asks for the name, the range and the format of a mode, unless it has done so.
    fn ask_about(&mut self, index: usize, mode: usize) {
        let device = self.links[index].device;
        let (number, name, format) = device.modes[mode];
        let [port, number] = [device.port.into(), number.into()];
        if !self.links[index].told[mode] {
            self.down(Form::ModeInformationRequest, &[port, number, 0]);
            self.up_open(Form::ModeText, &[port, number, 0], name);
            self.down(Form::ModeInformationRequest, &[port, number, 3]);
            self.up(Form::ModeRange, &[port, number, 3, 0, 0x42C8_0000]);
            self.down(Form::ModeInformationRequest, &[port, number, 0x80]);
            let [datasets, kind, figures, decimals] = format.map(u64::from);
            self.up(
                Form::ValueFormat,
                &[port, number, 0x80, datasets, kind, figures, decimals],
            );
            self.links[index].told[mode] = true;
        }
    }

    /// The client sets a port to a mode. Until the hub answers, values still come in the old one.
    fn set(&mut self, index: usize, mode: usize) {
        self.ask_about(index, mode);
        let device = self.links[index].device;
        let [port, number] = [device.port.into(), device.modes[mode].0.into()];
        let delta = self.random.between(1, 5) as u64;
        self.down(Form::InputFormatSetup, &[port, number, delta, 1]);
        self.late_values(index);
        let late = self.late_value(index);
        // Some hubs take another delta than asked.
        let taken = if self.random.once_in(10) { delta + 1 } else { delta };
        self.up(Form::InputFormat, &[port, number, taken, 1]);
        self.links[index].mode = Some(mode);
        self.links[index].combined = None;
        self.push_value(late);
    }

    /// The client asks a port for a list of modes and datasets, now and then for another one before it is answered, or
    /// for a mode in between. Until the hub answers, values still come as before.
    fn combine(&mut self, index: usize) {
        let device = self.links[index].device;
        let port = u64::from(device.port);
        let combination = self.random.below(device.lists.len());
        let list = device.lists[combination];
        for mode in 0..device.modes.len() {
            if list.iter().any(|entry| entry >> 4 == device.modes[mode].0) {
                self.ask_about(index, mode);
            }
        }
        self.down(Form::CombinedSetup, &[port, 2]);
        if self.random.once_in(4) {
            let other = self.random.one_of(device.lists);
            self.down_open(Form::ModeDatasets, &[port, 1, 0], other);
            self.late_values(index);
        }
        self.down_open(Form::ModeDatasets, &[port, 1, combination as u64], list);
        self.late_values(index);
        if self.random.once_in(8) {
            let mode = self.random.below(device.modes.len());
            self.set(index, mode);
        }
        let start = self.random.one_of(&[3, 4]);
        self.down(Form::CombinedSetup, &[port, start]);
        let late = self.late_value(index);
        // Some hubs can't send the last of several.
        let whole = u16::MAX >> (16 - list.len());
        let pointers = if list.len() > 1 && self.random.once_in(10) {
            whole >> 1
        } else {
            whole
        };
        let control = combination as u64 | (4 - start) << 7;
        self.up(Form::InputFormatCombined, &[port, control, pointers.into()]);
        self.links[index].mode = None;
        self.links[index].combined = Some((list, pointers));
        self.push_value(late);
    }

    /// Values of a port that was asked something and has not answered yet.
    fn late_values(&mut self, index: usize) {
        if self.links[index].sends() {
            for _ in 0..self.random.below(4) {
                self.value(index);
            }
        }
    }

    /// Now and then a value that is sent before the answer, and comes after it.
    fn late_value(&mut self, index: usize) -> Option<Vec<u8>> {
        if self.random.once_in(8) {
            self.value_message(index)
        } else {
            None
        }
    }

    /// The client drives both motors by the virtual port, or a motor alone, and the hub tells how far they are. Some
    /// clients ask for both by a port that isn't virtual.
    fn drive(&mut self) {
        let index = self.any(|link| link.is_attached && link.device.device == MOTOR_DEVICE);
        let Device { port, members, .. } = *self.links[index].device;
        let port = u64::from(port);
        let speed = self.random.between(1, 100) as u64;
        let [position_1, position_2] = [0, 0].map(|_: u64| (self.random.below(2001) as i64 - 1000) as u64);
        let end = [100, self.random.one_of(&[0, 126, 127]), 3];
        let for_two = members.is_some() || self.random.once_in(20);
        let sub = if for_two { self.random.below(4) } else { 0 };
        let (form, values) = match sub {
            0 => (
                Form::GotoAbsolutePosition,
                [&[port, 0x11, 0x0D, position_1, speed][..], &end].concat(),
            ),
            1 => {
                let go = [port, 0x11, 0x0E, position_1, position_2, speed];
                (Form::GotoAbsolutePositions, [&go[..], &end].concat())
            }
            2 => {
                let degrees = self.random.between(0, 720) as u64;
                let turn = [port, 0x11, 0x0C, degrees, speed, speed.wrapping_neg()];
                (Form::StartSpeedForDegrees, [&turn[..], &end].concat())
            }
            _ => (Form::PresetEncoders, vec![port, 0x11, 0x14, position_1, position_2]),
        };
        self.down(form, &values);
        // In progress, then completed and idle.
        for feedback in [0x01, 0x0A] {
            let pairs = members.map_or(vec![port as u8], |[port_a, port_b]| vec![port as u8, port_a, port_b]);
            let bytes: Vec<u8> = pairs.into_iter().flat_map(|port| [port, feedback]).collect();
            self.up_open(Form::OutputFeedback, &[], &bytes);
        }
    }

    fn tell_about_hub(&mut self) {
        match self.random.below(5) {
            0 => {
                let voltage = self.random.between(20, 100) as u64;
                self.up(Form::PropertyByte, &[6, 6, voltage]);
            }
            1 => {
                let rssi = -(self.random.between(40, 90) as i64);
                self.up(Form::PropertyRssi, &[5, 6, rssi as u64]);
            }
            2 => {
                self.up(Form::PropertyByte, &[2, 6, 1]);
                self.up(Form::PropertyByte, &[2, 6, 0]);
            }
            3 => {
                self.down(Form::AlertCommand, &[1, 3]);
                self.up(Form::AlertUpdate, &[1, 4, 0]);
            }
            _ => self.up(Form::GenericError, &[0x41, 5]),
        }
    }

    /// A message is spoilt: its last byte is lost, a bit is turned, or a float is no number.
    fn spoil(&mut self) {
        let index = self.any(Link::sends);
        let Some(mut message) = self.value_message(index) else {
            return self.value(index);
        };
        match self.random.below(3) {
            0 => {
                message.pop();
                message[0] -= 1;
            }
            1 => {
                let place = self.random.below(message.len());
                message[place] ^= 1 << self.random.below(8);
            }
            _ => {
                let last = message.len() - 2;
                message[last..].copy_from_slice(&[0xC0, 0x7F]);
            }
        }
        self.push(Way::Up, message);
    }

    fn value(&mut self, index: usize) {
        let message = self.value_message(index);
        self.push_value(message);
    }

    /// Puts a value behind what comes next, if there is one.
    fn push_value(&mut self, message: Option<Vec<u8>>) {
        if let Some(message) = message {
            self.push(Way::Up, message);
        }
    }

    /// A 45 by a device's mode, if it has one, or a 46 by its list. Its level wanders.
    fn value_message(&mut self, index: usize) -> Option<Vec<u8>> {
        let step = self.random.below(21) as i32 - 10;
        if let Some((list, sent)) = self.links[index].combined {
            self.links[index].level += step;
            return Some(self.combined_message(index, list, sent));
        }
        let link = &mut self.links[index];
        let (_, _, [datasets, kind, ..]) = link.device.modes[link.mode?];
        link.level += step;
        let mut bytes = Vec::new();
        for dataset in 0..datasets {
            push_dataset(&mut bytes, kind, link.level + 7 * i32::from(dataset));
        }
        Some(compose(Way::Up, Form::PortValue, &[link.device.port.into()], &bytes))
    }

    /// A 46 by a list, with all pointers of the 48 or some of them.
    fn combined_message(&mut self, index: usize, list: &[u8], sent: u16) -> Vec<u8> {
        let some = sent & self.random.number() as u16;
        let pointers = if some != 0 && self.random.once_in(2) {
            some
        } else {
            sent
        };
        let link = &self.links[index];
        let kind = |mode: u8| {
            let mut modes = link.device.modes.iter();
            let (_, _, [_, kind, ..]) = *modes.find(|(number, ..)| *number == mode)?;
            Some(kind)
        };
        let mut bytes = Vec::new();
        for (place, entry) in list.iter().enumerate() {
            if pointers >> place & 1 == 1 {
                let kind = kind(entry >> 4).expect("a list is of a device's modes");
                push_dataset(&mut bytes, kind, link.level + 7 * i32::from(entry & 0x0F));
            }
        }
        let values = [link.device.port.into(), pointers.into()];
        compose(Way::Up, Form::PortValueCombined, &values, &bytes)
    }

    /// A device of those that are as wanted, of which there is at least one.
    fn any(&mut self, wanted: impl Fn(&Link) -> bool) -> usize {
        let such: Vec<usize> = (0..self.links.len())
            .filter(|&index| wanted(&self.links[index]))
            .collect();
        self.random.one_of(&such)
    }

    fn up(&mut self, form: Form, values: &[u64]) {
        self.up_open(form, values, &[]);
    }

    fn up_open(&mut self, form: Form, values: &[u64], open: &[u8]) {
        self.push(Way::Up, compose(Way::Up, form, values, open));
    }

    fn down(&mut self, form: Form, values: &[u64]) {
        self.down_open(form, values, &[]);
    }

    fn down_open(&mut self, form: Form, values: &[u64], open: &[u8]) {
        self.push(Way::Down, compose(Way::Down, form, values, open));
    }

    fn push(&mut self, way: Way, message: Vec<u8>) {
        self.queue.push_back((way, message, self.experiment));
    }
}

/// A dataset of a kind that says a level.
fn push_dataset(bytes: &mut Vec<u8>, kind: u8, level: i32) {
    match kind {
        0 => bytes.extend(((level % 100) as i8).to_le_bytes()),
        1 => bytes.extend(((level % 10_000) as i16).to_le_bytes()),
        2 => bytes.extend(level.to_le_bytes()),
        _ => bytes.extend((level as f32 / 8.0).to_le_bytes()),
    }
}
