use crate::form::Form;
use crate::log::{log_record, LOG_RECORD};
use crate::traffic::compose;
use crate::way::Way;

/// The records of an hour at a bench: three experiments with two motors, and what goes wrong between them. At the end the
/// colour sensor sends several modes in one message. Every record carries the number of the running experiment, 0 before the first. A number after a message is its refusal.
pub(super) fn hour() -> Vec<[u8; LOG_RECORD]> {
    let mut hour = Hour::default();
    hour.switch_on();
    hour.describe_ports();
    hour.voltage_without_asking();
    hour.first_setups();
    hour.first_experiment();
    hour.late_answer();
    hour.second_experiment();
    hour.other_delta();
    hour.pair();
    hour.pulled_cable();
    hour.late_answer_back();
    hour.third_experiment();
    hour.colours_together();
    hour.switch_off();
    hour.records
}

// The ports. Motor B brakes motor A, the load cell measures the force between them, and the colour sensor sees marks on
// a disc. The virtual port joins both motors.
const MOTOR_A: u64 = 0;
const MOTOR_B: u64 = 1;
const COLOUR: u64 = 2;
const LOAD_CELL: u64 = 3;
const PAIR: u64 = 16;
const CURRENT: u64 = 59;
const VOLTAGE: u64 = 60;

// The motors' modes: degrees a second, and degrees. The hub tells that both are one number of four bytes, so nothing in
// a value says which of the two it is.
const SPEED: u64 = 1;
const POSITION: u64 = 2;
const MOTOR_MODES: [(u64, &[u8]); 2] = [(SPEED, b"SPEED"), (POSITION, b"POS")];
const ONE_WIDE: [u64; 4] = [1, 2, 11, 0];
const TWO_WIDE: [u64; 4] = [2, 2, 11, 0];

// Red, green and blue, two bytes each; and the colour that the sensor takes them for, one byte.
const RGB: u64 = 6;
const THREE_NARROW: [u64; 4] = [3, 1, 5, 0];
const COLOUR_INDEX: u64 = 0;
const ONE_BYTE: [u64; 4] = [1, 0, 3, 0];

// Newtons, as a float.
const FORCE: u64 = 0;
const ONE_FLOAT: [u64; 4] = [1, 3, 8, 3];

// Milliamperes and millivolts, two bytes each.
const ELECTRIC: u64 = 0;
const ONE_NARROW: [u64; 4] = [1, 1, 5, 0];

// The numbers of the experiments. Each has two bytes, so their order matters.
const FIRST: u16 = 301;
const SECOND: u16 = 302;
const THIRD: u16 = 303;

/// How long after a record the next one comes, unless the story says otherwise.
const STEP: u32 = 20;

#[derive(Default)]
struct Hour {
    records: Vec<[u8; LOG_RECORD]>,
    /// When the next record comes, in milliseconds.
    time: u32,
    /// The number of the running experiment.
    experiment: u16,
}

impl Hour {
    /// The hub tells what is attached to it, its name, its version and its battery's charge. It still sends the values
    /// that somebody asked for before this log began.
    fn switch_on(&mut self) {
        for (port, device) in [
            (MOTOR_A, 0x26),
            (MOTOR_B, 0x26),
            (COLOUR, 0x25),
            (LOAD_CELL, 0x40),
            (CURRENT, 0x15),
            (VOLTAGE, 0x14),
        ] {
            self.attach(port, device);
        }
        self.down(Form::PropertyCommand, &[1, 5]);
        self.up_open(Form::PropertyText, &[1, 6], b"Bench 17");
        self.down(Form::PropertyCommand, &[3, 5]);
        self.up(Form::PropertyVersion, &[3, 6, 0x1737_1510]);
        self.down(Form::PropertyCommand, &[6, 2]);
        self.battery(97);
        self.down(Form::AlertCommand, &[1, 1]);
        self.up(Form::AlertUpdate, &[1, 4, 0]);
        // 14: no 47 has said in which mode they are.
        self.wide(MOTOR_A, &[1284]);
        self.wide(MOTOR_A, &[1285]);
    }

    /// The client asks what the ports can do, and in which format their values come.
    fn describe_ports(&mut self) {
        self.at(0, 10);
        for motor in [MOTOR_A, MOTOR_B] {
            self.port_modes(motor, 3, 0b111);
            for (mode, name) in MOTOR_MODES {
                self.name(motor, mode, name);
                self.format(motor, mode, ONE_WIDE);
            }
        }
        self.port_modes(COLOUR, 11, 0b111_1101_1111);
        self.name(COLOUR, RGB, b"RGB I");
        self.format(COLOUR, RGB, THREE_NARROW);
        self.port_modes(LOAD_CELL, 2, 0b11);
        self.name(LOAD_CELL, FORCE, b"FORCE");
        self.down(Form::ModeInformationRequest, &[LOAD_CELL, FORCE, 4]);
        self.up_open(Form::ModeText, &[LOAD_CELL, FORCE, 4], b"N");
        self.format(LOAD_CELL, FORCE, ONE_FLOAT);
        self.format(CURRENT, ELECTRIC, ONE_NARROW);
    }

    /// The hub sets up its voltage port by itself: its 47 answers no 41.
    fn voltage_without_asking(&mut self) {
        self.at(1, 0);
        self.answer(VOLTAGE, ELECTRIC, 50);
        // 15: the client has not asked for this mode's format yet.
        self.narrow(VOLTAGE, &[8214]);
        self.format(VOLTAGE, ELECTRIC, ONE_NARROW);
        // State 0: nothing was asked.
        self.narrow(VOLTAGE, &[8214]);
        self.narrow(VOLTAGE, &[8209]);
    }

    /// The client sets up what the first experiment needs, and the hub answers at once, as it was asked.
    fn first_setups(&mut self) {
        self.at(2, 0);
        self.experiment = FIRST;
        for (port, mode) in [
            (MOTOR_A, SPEED),
            (MOTOR_B, SPEED),
            (LOAD_CELL, FORCE),
            (CURRENT, ELECTRIC),
        ] {
            self.ask(port, mode, 5);
            self.answer(port, mode, 5);
        }
    }

    /// Motor A runs up to 600 degrees a second, and motor B brakes it. All values are in state 2 and carry the number of
    /// the experiment, but for the voltage's.
    fn first_experiment(&mut self) {
        self.at(5, 0);
        // Start motor A at a speed. 7: that sub of 81 is not covered. Then the hub's feedback that it runs.
        self.raw(Way::Down, &[0x09, 0x00, 0x81, 0x00, 0x11, 0x07, 0x3C, 0x64, 0x00]);
        self.raw(Way::Up, &[0x05, 0x00, 0x82, 0x00, 0x01]);
        for (minute, [speed_a, speed_b], force, current) in [
            (5, [0, 0], 0.125, 41),
            (6, [118, 117], 0.5, 187),
            (7, [236, 235], 1.25, 263),
            (8, [361, 359], 2.5, 340),
            (9, [478, 477], 3.75, 402),
            (10, [597, 596], 5.5, 488),
        ] {
            self.at(minute, 10);
            self.wide(MOTOR_A, &[speed_a]);
            self.wide(MOTOR_B, &[speed_b]);
            self.floats(LOAD_CELL, &[force]);
            self.narrow(CURRENT, &[current]);
        }
        self.narrow(VOLTAGE, &[7961]);
        self.battery(88);
        self.at(12, 0);
        // 18: the load cell is overloaded and sends a float that is no number.
        self.floats(LOAD_CELL, &[f32::NAN]);
        self.floats(LOAD_CELL, &[6.25]);
        // 16: a byte of a float is lost, and three are left.
        self.value(LOAD_CELL, &6.5_f32.to_le_bytes()[1..]);
        self.floats(LOAD_CELL, &[6.5]);
        // 19: behind the message stands a byte that is not 0.
        self.wide(MOTOR_A, &[600]);
        self.records.last_mut().expect("the value of motor A")[40] = 0x5A;
        self.wide(MOTOR_A, &[601]);
        self.wide(MOTOR_B, &[600]);
    }

    /// The second experiment needs the position of motor A in place of its speed. The hub is slow: for almost two
    /// seconds it goes on sending speeds, while the motor runs down, and each of them could be a position. They are read
    /// by the mode that the hub last answered, and state 1 says that it has not answered since it was asked. They carry
    /// no number: neither experiment asked for them.
    fn late_answer(&mut self) {
        self.at(20, 0);
        self.wide(MOTOR_A, &[602]);
        self.experiment = SECOND;
        self.ask(MOTOR_A, POSITION, 5);
        for speed in [598, 451, 287, 140, 36] {
            self.time += 280;
            self.wide(MOTOR_A, &[speed]);
            self.wide(MOTOR_B, &[speed - 2]);
        }
        self.time += 300;
        self.answer(MOTOR_A, POSITION, 5);
        self.wide(MOTOR_A, &[431_204]);
        // Position 0 is where the motor stands now. 7, as above.
        self.raw(
            Way::Down,
            &[0x0B, 0x00, 0x81, 0x00, 0x11, 0x51, 0x02, 0x00, 0x00, 0x00, 0x00],
        );
        self.wide(MOTOR_A, &[0]);
        // The brake lets go, and motor A turns back past 0: it swings to -8 degrees and comes to rest at -3.
        self.time += 400;
        self.wide(MOTOR_A, &[-8]);
        self.wide(MOTOR_A, &[-3]);
    }

    /// Motor A goes from one position to the next, an eighth of a turn at a time. The load cell and the current are not
    /// asked anew, so their values still carry the number of the first experiment.
    fn second_experiment(&mut self) {
        for (minute, position, force) in [
            (22, 45, 0.75),
            (23, 90, 1.5),
            (24, 135, 2.25),
            (25, 180, 3.0),
            (26, 225, 3.75),
            (27, 270, 4.5),
        ] {
            self.at(minute, 0);
            self.wide(MOTOR_A, &[position - 20]);
            self.wide(MOTOR_A, &[position]);
            self.floats(LOAD_CELL, &[force]);
            self.narrow(CURRENT, &[296]);
        }
        self.narrow(VOLTAGE, &[7702]);
        self.battery(71);
    }

    /// The client asks for every change of the colours, and the hub answers that it will tell changes of 4 and more:
    /// the mode is as asked, the delta is not. State 3, until the client asks for what the hub does.
    fn other_delta(&mut self) {
        self.at(30, 0);
        self.ask(COLOUR, RGB, 1);
        self.answer(COLOUR, RGB, 4);
        for colours in [[212, 40, 31], [208, 44, 31], [57, 180, 66]] {
            self.time += 500;
            self.narrow(COLOUR, &colours);
        }
        self.ask(COLOUR, RGB, 4);
        self.answer(COLOUR, RGB, 4);
        for colours in [[52, 184, 71], [48, 63, 201]] {
            self.time += 500;
            self.narrow(COLOUR, &colours);
        }
    }

    /// Both motors are joined in a virtual port, which has formats and a setup of its own. One command drives both, and
    /// each value of the port has two datasets, a position for each motor.
    fn pair(&mut self) {
        self.at(36, 0);
        self.down(Form::VirtualConnect, &[1, MOTOR_A, MOTOR_B]);
        self.up(Form::AttachedVirtual, &[PAIR, 2, 0x26, MOTOR_A, MOTOR_B]);
        self.name(PAIR, POSITION, b"POS");
        self.format(PAIR, POSITION, TWO_WIDE);
        self.ask(PAIR, POSITION, 5);
        self.answer(PAIR, POSITION, 5);
        // Both are sent to a position. 22 for the first command: motor A alone has one only. Then the hub's feedback.
        for port in [MOTOR_A, PAIR] {
            self.down(
                Form::GotoAbsolutePositions,
                &[port, 0x11, 0x0E, 450, 447, 10, 100, 126, 0],
            );
        }
        self.raw(Way::Up, &[0x05, 0x00, 0x82, PAIR as u8, 0x01]);
        for (minute, position) in [(37, 270), (38, 315), (39, 360), (40, 405), (41, 450)] {
            self.at(minute, 0);
            self.wide(PAIR, &[position, position - 3]);
            self.narrow(CURRENT, &[377]);
        }
        self.battery(56);
    }

    /// The cable of motor B is pulled. Motor B is gone, and the virtual port with it; motor A is as it was. When motor B
    /// is there again, nothing of what was known of it holds. It is set up for the third experiment.
    fn pulled_cable(&mut self) {
        self.at(45, 0);
        self.up(Form::Detached, &[MOTOR_B, 0]);
        // 10: the virtual port is not present any more.
        self.wide(PAIR, &[454, 451]);
        self.wide(MOTOR_A, &[454]);
        // 12: one of the pair is not present.
        self.down(Form::VirtualConnect, &[1, MOTOR_A, MOTOR_B]);
        self.at(46, 30);
        self.experiment = THIRD;
        self.attach(MOTOR_B, 0x26);
        // 14: no 47 came since motor B was attached.
        self.wide(MOTOR_B, &[0]);
        self.ask(MOTOR_B, SPEED, 5);
        self.answer(MOTOR_B, SPEED, 5);
        // 15: no format came since motor B was attached.
        self.wide(MOTOR_B, &[0]);
        self.format(MOTOR_B, SPEED, ONE_WIDE);
        self.wide(MOTOR_B, &[0]);
    }

    /// The third experiment is about speeds again, and the hub is slow again. Now degrees come while speeds are
    /// expected, and each of them could be a speed.
    fn late_answer_back(&mut self) {
        self.at(50, 0);
        self.ask(MOTOR_A, SPEED, 5);
        for position in [454, 461, 489, 530] {
            self.time += 250;
            self.wide(MOTOR_A, &[position]);
        }
        self.answer(MOTOR_A, SPEED, 5);
        self.wide(MOTOR_A, &[242]);
        self.wide(MOTOR_A, &[246]);
    }

    /// Motor A runs at three speeds.
    fn third_experiment(&mut self) {
        for (minute, speed, force) in [(51, 250, 1.25), (53, 400, 2.75), (55, 550, 4.75)] {
            for (second, faster) in [(0, 0), (20, 1), (40, 2)] {
                self.at(minute, second);
                self.wide(MOTOR_A, &[speed + faster]);
                self.wide(MOTOR_B, &[speed - 1]);
                self.floats(LOAD_CELL, &[force]);
            }
            self.narrow(CURRENT, &[speed as i16 / 2 + 60]);
        }
        self.narrow(VOLTAGE, &[6480]);
    }

    /// The client asks the colour sensor for a list: the colour, red, green and blue in one message. The hub answers with
    /// a pointer to each of them. Then it is asked for another list, red and green, which it first answers in part.
    fn colours_together(&mut self) {
        self.at(57, 0);
        self.format(COLOUR, COLOUR_INDEX, ONE_BYTE);
        self.down(Form::CombinedSetup, &[COLOUR, 2]);
        self.list(&[0x00, 0x60, 0x61, 0x62]);
        self.down(Form::CombinedSetup, &[COLOUR, 3]);
        // State 1: the hub has not answered yet.
        self.narrow(COLOUR, &[51, 66, 203]);
        self.combined_answer(0b1111);
        self.combined(0b1111, &[3, 50, 0, 64, 0, 205, 0]);
        // The colour alone has changed.
        self.combined(0b0001, &[9]);
        // 14: it was sent before the answer, and comes too late.
        self.narrow(COLOUR, &[50, 64, 205]);
        self.at(57, 30);
        self.list(&[0x60, 0x61]);
        // State 1: by the list that the hub answered, and not by the new one.
        self.combined(0b1110, &[211, 0, 39, 0, 30, 0]);
        // State 3: red alone is answered. 21: there is no pointer to green.
        self.combined_answer(0b01);
        self.combined(0b01, &[212, 0]);
        self.combined(0b11, &[212, 0, 40, 0]);
        self.combined_answer(0b11);
        self.combined(0b11, &[212, 0, 40, 0]);
        self.combined(0b10, &[44, 0]);
    }

    /// The battery is low, and the client switches the hub off. After the hub's notice no port is present.
    fn switch_off(&mut self) {
        self.at(59, 0);
        self.battery(9);
        self.up(Form::AlertUpdate, &[1, 4, 0xFF]);
        self.at(59, 59);
        self.down(Form::HubAction, &[0x01]);
        self.up(Form::HubAction, &[0x30]);
        // 10: it comes after the notice.
        self.wide(MOTOR_A, &[0]);
    }

    /// Goes on to a time of the hour.
    fn at(&mut self, minutes: u32, seconds: u32) {
        let time = (minutes * 60 + seconds) * 1000;
        assert!(self.time <= time, "the story goes back to {minutes}:{seconds}");
        self.time = time;
    }

    fn attach(&mut self, port: u64, device: u64) {
        self.up(Form::Attached, &[port, 1, device, 0x1000_0000, 0x1000_0000]);
    }

    /// The client asks which modes a port has.
    fn port_modes(&mut self, port: u64, count: u64, modes: u64) {
        self.down(Form::PortInformationRequest, &[port, 1]);
        self.up(Form::PortModes, &[port, 1, 2, count, modes, 0]);
    }

    /// The client asks for the name of a mode.
    fn name(&mut self, port: u64, mode: u64, name: &[u8]) {
        self.down(Form::ModeInformationRequest, &[port, mode, 0]);
        self.up_open(Form::ModeText, &[port, mode, 0], name);
    }

    /// The client asks for the format of a mode.
    fn format(&mut self, port: u64, mode: u64, [datasets, kind, figures, decimals]: [u64; 4]) {
        self.down(Form::ModeInformationRequest, &[port, mode, 0x80]);
        let values = [port, mode, 0x80, datasets, kind, figures, decimals];
        self.up(Form::ValueFormat, &values);
    }

    /// The client asks for a setup (41).
    fn ask(&mut self, port: u64, mode: u64, delta: u64) {
        self.down(Form::InputFormatSetup, &[port, mode, delta, 1]);
    }

    /// The hub answers with the setup that it has (47).
    fn answer(&mut self, port: u64, mode: u64, delta: u64) {
        self.up(Form::InputFormat, &[port, mode, delta, 1]);
    }

    /// The client asks the colour sensor for a list of modes and datasets (42, sub command 1).
    fn list(&mut self, entries: &[u8]) {
        let message = compose(Way::Down, Form::ModeDatasets, &[COLOUR, 1, 0], entries);
        self.raw(Way::Down, &message);
    }

    /// The hub answers which entries of its list the colour sensor sends (48).
    fn combined_answer(&mut self, pointers: u64) {
        self.up(Form::InputFormatCombined, &[COLOUR, 0x80, pointers]);
    }

    /// The values of some entries (46).
    fn combined(&mut self, pointers: u64, bytes: &[u8]) {
        self.up_open(Form::PortValueCombined, &[COLOUR, pointers], bytes);
    }

    fn battery(&mut self, percent: u64) {
        self.up(Form::PropertyByte, &[6, 6, percent]);
    }

    /// A value whose datasets are four bytes each.
    fn wide(&mut self, port: u64, datasets: &[i32]) {
        let bytes: Vec<u8> = datasets.iter().flat_map(|number| number.to_le_bytes()).collect();
        self.value(port, &bytes);
    }

    /// A value whose datasets are two bytes each.
    fn narrow(&mut self, port: u64, datasets: &[i16]) {
        let bytes: Vec<u8> = datasets.iter().flat_map(|number| number.to_le_bytes()).collect();
        self.value(port, &bytes);
    }

    /// A value whose datasets are floats.
    fn floats(&mut self, port: u64, datasets: &[f32]) {
        let bytes: Vec<u8> = datasets.iter().flat_map(|number| number.to_le_bytes()).collect();
        self.value(port, &bytes);
    }

    fn value(&mut self, port: u64, bytes: &[u8]) {
        self.up_open(Form::PortValue, &[port], bytes);
    }

    fn up(&mut self, form: Form, values: &[u64]) {
        self.up_open(form, values, &[]);
    }

    fn up_open(&mut self, form: Form, values: &[u64], open: &[u8]) {
        self.raw(Way::Up, &compose(Way::Up, form, values, open));
    }

    fn down(&mut self, form: Form, values: &[u64]) {
        self.raw(Way::Down, &compose(Way::Down, form, values, &[]));
    }

    fn raw(&mut self, way: Way, message: &[u8]) {
        self.records.push(log_record(self.time, way, message, self.experiment));
        self.time += STEP;
    }
}
