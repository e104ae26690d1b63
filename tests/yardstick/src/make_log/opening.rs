use crate::form::Form;
use crate::log::{log_record, LOG_RECORD};
use crate::traffic::compose;
use crate::way::Way;

/// The records that a log of everything starts with: each form is accepted, and each refusal given, at least once.
pub(super) fn opening() -> Vec<[u8; LOG_RECORD]> {
    let mut opening = Opening::default();
    opening.reading();
    opening.about_the_hub();
    opening.ports();
    opening.mode_information();
    opening.values();
    opening.combined();
    opening.crowd();
    opening.records
}

#[derive(Default)]
struct Opening {
    records: Vec<[u8; LOG_RECORD]>,
}

impl Opening {
    /// Refusals 1 to 7 and 19.
    fn reading(&mut self) {
        self.down(&[]);
        self.down(&[0x80]);
        self.down(&[0x02, 0x00]);
        self.down(&[0x03, 0x01, 0x12]);
        self.up(&[0x03, 0x00, 0x12]);
        self.down(&[0x03, 0x00, 0x02]);
        self.down(&[0x04, 0x00, 0x02, 0x07]);
        // Direction 2, a zero that isn't, and bytes after the message.
        for place in [4, 5, 11, 135] {
            self.down(&[0x03, 0x00, 0x12]);
            self.records.last_mut().expect("the record of above")[place] = 2;
        }
    }

    fn about_the_hub(&mut self) {
        self.sent_down(Form::PropertyCommand, &[1, 5]);
        self.sent_up_open(Form::PropertyText, &[1, 6], b"Bench hub");
        self.sent_up(Form::PropertyByte, &[6, 6, 100]);
        self.sent_up(Form::PropertyRssi, &[5, 6, -60_i64 as u64]);
        self.sent_up(Form::PropertyVersion, &[3, 6, 0x1737_1510]);
        self.sent_up(Form::PropertyProtocol, &[10, 6, 0x0300]);
        self.sent_up(Form::PropertyAddress, &[13, 6, 0x0016_53A1_B2C3]);
        self.sent_down(Form::HubAction, &[5]);
        self.sent_down(Form::AlertCommand, &[1, 3]);
        self.sent_up(Form::AlertUpdate, &[1, 4, 0xFF]);
        self.sent_up(Form::GenericError, &[0x41, 5]);
        self.sent_down(Form::GoIntoBootMode, &[]);
        // The memory lock, as old logs have it: its types are no longer written.
        self.down(b"\x0B\x00\x11Lock Mem");
        self.down(&[0x03, 0x00, 0x12]);
        self.up(&[0x04, 0x00, 0x13, 0xFF]);
    }

    /// Refusals 10, 11, 12 and 22 too.
    fn ports(&mut self) {
        self.sent_up(Form::Detached, &[0, 0]); // 10
        self.attach(0);
        self.attach(1);
        self.attach(1); // 11
        self.sent_down(Form::VirtualConnect, &[1, 0, 1]);
        self.sent_up(Form::AttachedVirtual, &[16, 2, 0x26, 0, 0]); // 12
        self.sent_up(Form::AttachedVirtual, &[16, 2, 0x26, 0, 1]);
        self.motors();
        self.sent_down(Form::VirtualDisconnect, &[0, 16]);
        self.sent_up(Form::Detached, &[16, 0]);
        self.sent_down(Form::PortInformationRequest, &[0, 1]);
        self.sent_up(Form::PortModes, &[0, 1, 7, 4, 15, 15]);
        self.sent_up(Form::PortCombinations, &[0, 2, 1, 3, 0, 0, 0, 0, 0, 0, 0]);
    }

    /// Both motors of port 16 are driven, one of them alone, and the hub tells how far they are.
    fn motors(&mut self) {
        let end = [100, 126, 3];
        let turn = |port| [&[port, 0x11, 0x0C, 360, 50, -50_i64 as u64][..], &end].concat();
        self.sent_down(Form::StartSpeedForDegrees, &turn(16));
        self.sent_down(Form::StartSpeedForDegrees, &turn(0)); // 22
        self.sent_down(
            Form::GotoAbsolutePosition,
            &[&[0, 0x11, 0x0D, -3_i64 as u64, 50][..], &end].concat(),
        );
        let go = [16, 0x11, 0x0E, 90, -90_i64 as u64, 50];
        self.sent_down(Form::GotoAbsolutePositions, &[&go[..], &end].concat());
        self.sent_down(Form::PresetEncoders, &[16, 0x11, 0x14, 0, 0]);
        self.sent_up_open(Form::OutputFeedback, &[], &[16, 0x0A, 0, 0x01]);
    }

    fn mode_information(&mut self) {
        self.sent_down(Form::ModeInformationRequest, &[0, 2, 0]);
        self.sent_up_open(Form::ModeText, &[0, 2, 0], b"FORCE");
        self.sent_up(Form::ModeRange, &[0, 2, 3, 0, 0x4348_0000]);
        self.sent_up(Form::ModeMapping, &[0, 2, 5, 0x0010]);
        self.sent_up(Form::ModeBias, &[0, 2, 7, 0]);
        self.sent_up(Form::ModeCapabilities, &[0, 2, 8, 0x40]);
    }

    /// Refusals 14, 15, 16 and 18 too.
    fn values(&mut self) {
        let [one, nan] = [1.0_f32, f32::NAN].map(f32::to_le_bytes);
        self.sent_up_open(Form::PortValue, &[0], &one); // 14
        self.sent_down(Form::InputFormatSetup, &[0, 2, 1, 1]);
        self.sent_up(Form::InputFormat, &[0, 2, 1, 1]);
        self.sent_up_open(Form::PortValue, &[0], &one); // 15
        self.sent_up(Form::ValueFormat, &[0, 2, 0x80, 1, 3, 8, 3]);
        self.sent_up_open(Form::PortValue, &[0], &one[..3]); // 16
        self.sent_up_open(Form::PortValue, &[0], &one);
        self.sent_up_open(Form::PortValue, &[0], &nan); // 18
    }

    /// Refusals 17, 20 and 21 too. Port 0 is in mode 2, whose format is one float.
    fn combined(&mut self) {
        let one = 1.0_f32.to_le_bytes();
        let list = [0x20, 0x01, 0x00];
        self.sent_down_open(Form::ModeDatasets, &[9, 1, 0], &list); // 10
        self.sent_down(Form::CombinedSetup, &[0, 2]);
        self.sent_up(Form::InputFormatCombined, &[0, 0, 7]); // 21
        self.sent_down_open(Form::ModeDatasets, &[0, 1, 0], &list);
        self.down(&[0x08, 0x00, 0x42, 0x00, 0x01, 0x00, 0x20, 0x20]); // 7
        self.sent_up_open(Form::PortValueCombined, &[0, 1], &one); // 20
        self.sent_up(Form::InputFormatCombined, &[0, 0, 8]); // 21
        self.sent_up(Form::InputFormatCombined, &[0, 0, 7]);
        self.sent_up_open(Form::PortValueCombined, &[0, 8], &one); // 21
        self.sent_up_open(Form::PortValueCombined, &[0, 3], &one); // 15
        self.sent_up(Form::ValueFormat, &[0, 0, 0x80, 1, 0, 3, 0]);
        self.sent_up_open(Form::PortValueCombined, &[0, 3], &one); // 17
        self.sent_up_open(Form::PortValueCombined, &[0, 5], &one); // 16
        self.sent_up_open(Form::PortValueCombined, &[0, 5], &[one.as_slice(), &[0xFE]].concat());
        self.sent_up_open(Form::PortValueCombined, &[0, 1], &f32::NAN.to_le_bytes()); // 18
        self.sent_up_open(Form::PortValue, &[0], &one); // 14
        self.sent_up_open(Form::PortValueCombined, &[9, 1], &one); // 10
        self.sent_up(Form::InputFormatCombined, &[9, 0, 1]); // 10
    }

    /// Refusal 13 too, and a notice that empties the table.
    fn crowd(&mut self) {
        (2..=15).for_each(|port| self.attach(port));
        self.attach(20); // 13
        self.sent_up(Form::Detached, &[7, 0]);
        self.attach(20);
        self.sent_up(Form::HubAction, &[0x31]);
    }

    fn attach(&mut self, port: u64) {
        self.sent_up(Form::Attached, &[port, 1, 0x26, 0x1000_0000, 0x1000_0000]);
    }

    fn sent_up(&mut self, form: Form, values: &[u64]) {
        self.sent_up_open(form, values, &[]);
    }

    fn sent_up_open(&mut self, form: Form, values: &[u64], open: &[u8]) {
        self.up(&compose(Way::Up, form, values, open));
    }

    fn sent_down(&mut self, form: Form, values: &[u64]) {
        self.sent_down_open(form, values, &[]);
    }

    fn sent_down_open(&mut self, form: Form, values: &[u64], open: &[u8]) {
        self.down(&compose(Way::Down, form, values, open));
    }

    fn up(&mut self, message: &[u8]) {
        self.record(Way::Up, message);
    }

    fn down(&mut self, message: &[u8]) {
        self.record(Way::Down, message);
    }

    /// Adds a record. Each has an experiment number of its own, whose bytes differ.
    fn record(&mut self, way: Way, message: &[u8]) {
        let experiment = 0x8001 + self.records.len() as u16;
        self.records.push(log_record(0, way, message, experiment));
    }
}
