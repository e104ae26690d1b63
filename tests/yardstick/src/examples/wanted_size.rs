//! The sizes of messages, and the size that refusal 6 tells, by hand from the rules' table of messages. No program looks
//! at them.

use crate::form::Form;
use crate::way::Way::{self, Down, Up};

/// The smallest size of a form's messages.
pub fn smallest_size(form: Form) -> usize {
    match form {
        Form::PropertyCommand => 5,
        Form::PropertyText => 6,
        Form::PropertyByte => 6,
        Form::PropertyRssi => 6,
        Form::PropertyVersion => 9,
        Form::PropertyProtocol => 7,
        Form::PropertyAddress => 11,
        Form::HubAction => 4,
        Form::AlertCommand => 5,
        Form::AlertUpdate => 6,
        Form::Detached => 5,
        Form::Attached => 15,
        Form::AttachedVirtual => 9,
        Form::GenericError => 5,
        Form::GoIntoBootMode => 12,
        Form::LockMemory => 11,
        Form::LockStatusRequest => 3,
        Form::LockStatus => 4,
        Form::PortInformationRequest => 5,
        Form::ModeInformationRequest => 6,
        Form::InputFormatSetup => 10,
        Form::PortModes => 11,
        Form::PortCombinations => 7,
        Form::ModeText => 7,
        Form::ModeRange => 14,
        Form::ModeMapping => 8,
        Form::ModeBias => 7,
        Form::ModeCapabilities => 12,
        Form::ValueFormat => 10,
        Form::PortValue => 5,
        Form::InputFormat => 10,
        Form::VirtualDisconnect => 5,
        Form::VirtualConnect => 6,
        Form::StartSpeedForDegrees => 15,
        Form::GotoAbsolutePosition => 14,
        Form::GotoAbsolutePositions => 18,
        Form::PresetEncoders => 14,
        Form::OutputFeedback => 5,
        Form::CombinedSetup => 5,
        Form::ModeDatasets => 7,
        Form::PortValueCombined => 7,
        Form::InputFormatCombined => 7,
    }
}

/// The types that have selectors, each with the smallest size that holds them: the place of the last one, and one.
pub const SELECTOR_SIZES: [(u8, usize); 9] = [
    (0x01, 5),
    (0x02, 4),
    (0x03, 5),
    (0x04, 5),
    (0x42, 5),
    (0x43, 5),
    (0x44, 6),
    (0x61, 4),
    (0x81, 6),
];

/// The form that the type and the selectors of a message lead to, none where the selectors don't fit. The message's
/// header has to be right, and its selectors too.
pub fn selected_form(way: Way, message: &[u8]) -> Option<Form> {
    if selectors_size(message[2]).is_some_and(|size| message.len() < size) {
        return None;
    }
    Some(match (way, &message[2..]) {
        (Down, [0x01, _, 2..=5, ..]) => Form::PropertyCommand,
        (_, [0x01, 1 | 8 | 9, 1 | 6, ..]) => Form::PropertyText,
        (_, [0x01, 2 | 6 | 7 | 11 | 12 | 15, 1 | 6, ..]) => Form::PropertyByte,
        (Up, [0x01, 5, 6, ..]) => Form::PropertyRssi,
        (Up, [0x01, 3 | 4, 6, ..]) => Form::PropertyVersion,
        (Up, [0x01, 10, 6, ..]) => Form::PropertyProtocol,
        (Up, [0x01, 13 | 14, 6, ..]) => Form::PropertyAddress,
        (_, [0x02, ..]) => Form::HubAction,
        (Down, [0x03, ..]) => Form::AlertCommand,
        (Up, [0x03, ..]) => Form::AlertUpdate,
        (Up, [0x04, _, 0, ..]) => Form::Detached,
        (Up, [0x04, _, 1, ..]) => Form::Attached,
        (Up, [0x04, _, 2, ..]) => Form::AttachedVirtual,
        (Up, [0x05, ..]) => Form::GenericError,
        (Down, [0x10, ..]) => Form::GoIntoBootMode,
        (Down, [0x11, ..]) => Form::LockMemory,
        (Down, [0x12, ..]) => Form::LockStatusRequest,
        (Up, [0x13, ..]) => Form::LockStatus,
        (Down, [0x21, ..]) => Form::PortInformationRequest,
        (Down, [0x22, ..]) => Form::ModeInformationRequest,
        (Down, [0x41, ..]) => Form::InputFormatSetup,
        (Down, [0x42, _, 1, ..]) => Form::ModeDatasets,
        (Down, [0x42, _, 2..=4 | 6, ..]) => Form::CombinedSetup,
        (Up, [0x43, _, 1, ..]) => Form::PortModes,
        (Up, [0x43, _, 2, ..]) => Form::PortCombinations,
        (Up, [0x44, _, _, 0 | 4, ..]) => Form::ModeText,
        (Up, [0x44, _, _, 1..=3, ..]) => Form::ModeRange,
        (Up, [0x44, _, _, 5, ..]) => Form::ModeMapping,
        (Up, [0x44, _, _, 7, ..]) => Form::ModeBias,
        (Up, [0x44, _, _, 8, ..]) => Form::ModeCapabilities,
        (Up, [0x44, _, _, 0x80, ..]) => Form::ValueFormat,
        (Up, [0x45, ..]) => Form::PortValue,
        (Up, [0x46, ..]) => Form::PortValueCombined,
        (Up, [0x47, ..]) => Form::InputFormat,
        (Up, [0x48, ..]) => Form::InputFormatCombined,
        (Down, [0x61, 0, ..]) => Form::VirtualDisconnect,
        (Down, [0x61, 1, ..]) => Form::VirtualConnect,
        (Down, [0x81, _, _, 0x0C, ..]) => Form::StartSpeedForDegrees,
        (Down, [0x81, _, _, 0x0D, ..]) => Form::GotoAbsolutePosition,
        (Down, [0x81, _, _, 0x0E, ..]) => Form::GotoAbsolutePositions,
        (Down, [0x81, _, _, 0x14, ..]) => Form::PresetEncoders,
        (Up, [0x82, ..]) => Form::OutputFeedback,
        _ => panic!("{message:02X?} {way:?} has another type or other selectors"),
    })
}

/// Whether the size of a message is one that its type and its selectors allow.
pub fn has_right_size(way: Way, message: &[u8]) -> bool {
    let size = message.len();
    match selected_form(way, message) {
        None => false,
        Some(Form::PropertyText) if message[3] == 1 => (6..=19).contains(&size),
        Some(Form::PropertyText) => (6..=127).contains(&size),
        Some(Form::PortCombinations) => [7, 9, 11, 13, 15, 17, 19, 21].contains(&size),
        Some(Form::ModeText) if message[5] == 0 => (7..=17).contains(&size),
        Some(Form::ModeText) => (7..=11).contains(&size),
        Some(Form::PortValue) => (5..=127).contains(&size),
        // Port, sub command, combination index and one to sixteen entries.
        Some(Form::ModeDatasets) => (7..=22).contains(&size),
        Some(Form::PortValueCombined) => (7..=127).contains(&size),
        // A header and pairs.
        Some(Form::OutputFeedback) => (5..=127).contains(&size) && size % 2 == 1,
        Some(form) => size == smallest_size(form),
    }
}

/// The size that is wanted of a message: the smallest of the form that its type and its selectors lead to or, where the
/// selectors don't fit, the smallest that holds them.
pub fn wanted_size(way: Way, message: &[u8]) -> usize {
    match (selected_form(way, message), selectors_size(message[2])) {
        (Some(form), _) => smallest_size(form),
        (None, Some(size)) => size,
        (None, None) => unreachable!("selectors that there aren't always fit"),
    }
}

fn selectors_size(message_type: u8) -> Option<usize> {
    let mut types = SELECTOR_SIZES.into_iter();
    types.find(|&(it, _)| it == message_type).map(|(_, size)| size)
}
