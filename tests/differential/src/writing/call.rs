use yardstick::examples::FORMS;
use yardstick::{decode, Form, Row, Way, ROW_CELLS};

/// A length of output that every message fits in with some bytes to spare.
pub const OUTPUT: usize = 130;

/// What a writer is called with.
#[derive(Clone, Debug)]
pub struct Call {
    /// The message's way.
    pub way: Way,
    /// The message's form.
    pub form: Form,
    /// The message's values, which may be any numbers.
    pub values: Vec<u64>,
    /// The open bytes.
    pub open: Vec<u8>,
    /// The length of the output.
    pub output: usize,
}

impl Call {
    /// The call that writes a message, if that is one that reading accepts.
    pub fn writing(way: Way, message: &[u8]) -> Option<Call> {
        let decoded = decode(way, message).ok()?;
        Some(Call {
            way,
            form: decoded.form,
            values: decoded.values().to_vec(),
            open: message[decoded.open.clone()].to_vec(),
            output: OUTPUT,
        })
    }

    /// The row of the message. The cells that the writer has no use for hold any numbers.
    pub fn row(&self) -> Row {
        let mut row = [0xA5A5_0000_0000_5A00; ROW_CELLS];
        row[0] = self.form.number().into();
        row[4..][..self.values.len()].copy_from_slice(&self.values);
        row
    }
}

/// Messages that reading accepts: the examples of every form, the longest list among them, and the longest texts, values
/// and feedback.
pub fn valid_messages() -> Vec<(Way, Vec<u8>)> {
    let mut messages: Vec<(Way, Vec<u8>)> = FORMS.iter().map(|it| (it.way, it.bytes())).collect();
    for start in [[0x7F, 0, 0x01, 8, 6], [0x7F, 0, 0x01, 9, 6], [0x7F, 0, 0x45, 0, 0]] {
        let mut message = start.to_vec();
        message.extend(0x83..=0xFC);
        messages.push((Way::Up, message));
    }
    let mut combined = vec![0x7F, 0, 0x46, 0, 0xFF, 0xFF];
    combined.extend(0x83..=0xFB);
    messages.push((Way::Up, combined));
    messages.push((Way::Up, longest_feedback()));
    messages
}

/// Feedback about 62 ports, each with other bits than the next.
fn longest_feedback() -> Vec<u8> {
    let mut message = vec![0x7F, 0, 0x82];
    message.extend((0..62).flat_map(|pair| [0xFF - pair, pair % 32]));
    message
}

/// Calls that write feedback of which one byte is outside its list, with their answers by hand.
pub fn bad_feedback_calls() -> Vec<(Call, u64)> {
    let mut calls = Vec::new();
    for valid in valid_calls()
        .into_iter()
        .filter(|call| call.form == Form::OutputFeedback)
    {
        for index in (1..valid.open.len()).step_by(2) {
            for byte in [32, 127, 128, 255] {
                let mut call = valid.clone();
                call.open[index] = byte;
                calls.push((call, 7 << 32 | (3 + index as u64)));
            }
        }
    }
    calls
}

/// Calls that write these. All are accepted but those of the types that are only read.
pub fn valid_calls() -> Vec<Call> {
    let call = |(way, message): (Way, Vec<u8>)| Call::writing(way, &message).expect("a message that is accepted");
    valid_messages().into_iter().map(call).collect()
}
