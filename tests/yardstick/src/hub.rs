use crate::decoded::Decoded;
use crate::fields::Fields;
use crate::form::Form;
use crate::lists;
use crate::refusal::Refusal;
use crate::way::Way;

/// Hub Actions, 02.
pub(crate) fn action(way: Way, mut fields: Fields) -> Result<Decoded, Refusal> {
    fields.selectors_up_to(3)?;
    fields.byte_of(|action| lists::is_action(way, action))?;
    fields.size_is(4)?;
    fields.accept(Form::HubAction)
}

/// Hub Alerts, 03, down: an operation on an alert.
pub(crate) fn alert_command(mut fields: Fields) -> Result<Decoded, Refusal> {
    fields.selectors_up_to(4)?;
    fields.byte_of(lists::is_alert)?;
    fields.byte_of(|operation| lists::is_alert_operation(Way::Down, operation))?;
    fields.size_is(5)?;
    fields.accept(Form::AlertCommand)
}

/// Hub Alerts, 03, up: the status of an alert.
pub(crate) fn alert_update(mut fields: Fields) -> Result<Decoded, Refusal> {
    fields.selectors_up_to(4)?;
    fields.byte_of(lists::is_alert)?;
    fields.byte_of(|operation| lists::is_alert_operation(Way::Up, operation))?;
    fields.size_is(6)?;
    fields.byte_of(lists::is_alert_status)?;
    fields.accept(Form::AlertUpdate)
}

/// Hub Attached I/O, 04.
pub(crate) fn attached_io(mut fields: Fields) -> Result<Decoded, Refusal> {
    fields.selectors_up_to(4)?;
    fields.port();
    let event = fields.byte_of(lists::is_event)?;
    match event {
        0 => {
            fields.size_is(5)?;
            fields.accept(Form::Detached)
        }
        1 => {
            fields.size_is(15)?;
            fields.two_bytes(); // device
            fields.signed_four_bytes(); // hardware revision
            fields.signed_four_bytes(); // software revision
            fields.accept(Form::Attached)
        }
        _ => {
            fields.size_is(9)?;
            fields.two_bytes(); // device
            fields.port();
            fields.port();
            fields.accept(Form::AttachedVirtual)
        }
    }
}

/// Generic Error Messages, 05.
pub(crate) fn generic_error(mut fields: Fields) -> Result<Decoded, Refusal> {
    fields.size_is(5)?;
    fields.byte(); // command type
    fields.byte_of(lists::is_error)?;
    fields.accept(Form::GenericError)
}
