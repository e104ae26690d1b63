use crate::form::Form;
use crate::refusal::Refusal;
use crate::way::Way;

/// Judges whether the form's type goes this way.
pub(super) fn judge_way(way: Way, form: Form) -> Result<(), Refusal> {
    let goes = match message_type(form) {
        0x01..=0x03 => true,
        0x04 | 0x05 | 0x13 | 0x43..=0x48 | 0x82 => way == Way::Up,
        _ => way == Way::Down,
    };
    if goes {
        Ok(())
    } else {
        Err(Refusal::MESSAGE_TYPE)
    }
}

/// Judges whether the form's type is written at all. Those of the memory lock are only read.
pub(super) fn judge_writable(form: Form) -> Result<(), Refusal> {
    match message_type(form) {
        0x11..=0x13 => Err(Refusal::READ_ONLY),
        _ => Ok(()),
    }
}

/// The type of a form.
pub(super) fn message_type(form: Form) -> u8 {
    match form {
        Form::PropertyCommand
        | Form::PropertyText
        | Form::PropertyByte
        | Form::PropertyRssi
        | Form::PropertyVersion
        | Form::PropertyProtocol
        | Form::PropertyAddress => 0x01,
        Form::HubAction => 0x02,
        Form::AlertCommand | Form::AlertUpdate => 0x03,
        Form::Detached | Form::Attached | Form::AttachedVirtual => 0x04,
        Form::GenericError => 0x05,
        Form::GoIntoBootMode => 0x10,
        Form::LockMemory => 0x11,
        Form::LockStatusRequest => 0x12,
        Form::LockStatus => 0x13,
        Form::PortInformationRequest => 0x21,
        Form::ModeInformationRequest => 0x22,
        Form::InputFormatSetup => 0x41,
        Form::PortModes | Form::PortCombinations => 0x43,
        Form::ModeText
        | Form::ModeRange
        | Form::ModeMapping
        | Form::ModeBias
        | Form::ModeCapabilities
        | Form::ValueFormat => 0x44,
        Form::PortValue => 0x45,
        Form::InputFormat => 0x47,
        Form::VirtualDisconnect | Form::VirtualConnect => 0x61,
        Form::StartSpeedForDegrees
        | Form::GotoAbsolutePosition
        | Form::GotoAbsolutePositions
        | Form::PresetEncoders => 0x81,
        Form::OutputFeedback => 0x82,
        Form::CombinedSetup | Form::ModeDatasets => 0x42,
        Form::PortValueCombined => 0x46,
        Form::InputFormatCombined => 0x48,
    }
}
