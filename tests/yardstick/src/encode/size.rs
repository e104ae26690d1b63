use std::ops::RangeInclusive;

use crate::form::Form;
use crate::header;
use crate::kind::Kind;
use crate::lists;
use crate::message::Message;
use crate::refusal::Refusal;

/// Judges how many open bytes there are, and the count of a 43. The selectors are judged before. A refusal tells the
/// size of the form with as few open bytes, and as few entries, as it may have.
pub(super) fn judge(message: Message, open: &[u8]) -> Result<(), Refusal> {
    let lengths = open_lengths(message);
    if lengths.contains(&open.len()) && has_whole_pairs(message, open) && has_entries(message) {
        Ok(())
    } else {
        let fields = width_of_fields(message.form());
        Err(Refusal::size(header::SIZE + fields + lengths.start()))
    }
}

/// How many open bytes the form and its selectors allow.
fn open_lengths(message: Message) -> RangeInclusive<usize> {
    match (message.form(), message.values()) {
        (Form::PropertyText, &[property, _]) => lists::property_text_lengths(property as u8),
        (Form::ModeText, &[_, _, information_type]) => lists::mode_text_lengths(information_type as u8),
        // A message of 127 bytes has room for 123 after its port.
        (Form::PortValue, _) => 1..=123,
        // And for 62 pairs after its header.
        (Form::OutputFeedback, _) => 2..=124,
        (Form::ModeDatasets, _) => lists::ENTRIES,
        // And for 121 after port and pointers.
        (Form::PortValueCombined, _) => 1..=121,
        _ => 0..=0,
    }
}

/// Whether the open bytes of feedback are pairs. Those of other forms may be any number.
fn has_whole_pairs(message: Message, open: &[u8]) -> bool {
    message.form() != Form::OutputFeedback || open.len().is_multiple_of(2)
}

/// Whether the count of a 43 is that of a list. Other forms have none.
fn has_entries(message: Message) -> bool {
    match (message.form(), message.values()) {
        (Form::PortCombinations, &[_, _, count, ..]) => (1..=8).contains(&count),
        _ => true,
    }
}

/// How many bytes the fields of a form have after the header, its open bytes excluded.
fn width_of_fields(form: Form) -> usize {
    let width = |kinds: &[Kind]| kinds.iter().map(|kind| kind.width()).sum();
    match (form, form.kinds()) {
        // The string isn't among the values.
        (Form::GoIntoBootMode, _) => b"LPF2-Boot".len(),
        // The count is among the values and isn't written, and one entry is the least.
        (Form::PortCombinations, &[port, information_type, _, entry, ..]) => width(&[port, information_type, entry]),
        (_, kinds) => width(kinds),
    }
}
