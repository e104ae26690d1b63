//! The bytes of each form that is written, with the fields judged left to right.

mod combined;
mod firmware;
mod hub;
mod hub_property;
mod mode_information;
mod output;
mod port;

use super::bytes::Bytes;
use super::message_type::message_type;
use crate::form::Form;
use crate::message::Message;
use crate::refusal::Refusal;

/// Lays out the header, the fields and the open bytes, which are last in every form that has them.
pub(super) fn lay_out(message: Message, open: &[u8]) -> Result<Vec<u8>, Refusal> {
    let form = message.form();
    let message_type = message_type(form);
    let values = message.values();
    let mut bytes = Bytes::of_type(message_type);
    match message_type {
        0x01 => hub_property::property(&mut bytes, form, values)?,
        0x02..=0x05 => hub::lay_out(&mut bytes, form, values)?,
        0x10 => firmware::go_into_boot_mode(&mut bytes),
        0x42 | 0x46 | 0x48 => combined::lay_out(&mut bytes, form, values),
        0x44 => mode_information::information(&mut bytes, form, values)?,
        0x81 => output::command(&mut bytes, form, values)?,
        // It has nothing but open bytes.
        0x82 => {}
        _ => port::lay_out(&mut bytes, form, values)?,
    }
    // Some of them are judged as they are laid out.
    match form {
        Form::OutputFeedback => bytes.pairs(open)?,
        Form::ModeDatasets => bytes.entries(open)?,
        _ => bytes.run(open),
    }
    bytes.finish()
}

/// The values of a message are those of its form.
fn other_values(values: &[u64]) -> ! {
    unreachable!("the form has other values than {values:?}")
}
