use super::other_values;
use crate::encode::bytes::Bytes;
use crate::form::Form;
use crate::lists;
use crate::refusal::Refusal;

/// Hub Actions, 02; Hub Alerts, 03; Hub Attached I/O, 04; Generic Error Messages, 05.
pub(super) fn lay_out(bytes: &mut Bytes, form: Form, values: &[u64]) -> Result<(), Refusal> {
    match (form, values) {
        (Form::HubAction, &[action]) => bytes.byte(action),
        (Form::AlertCommand, &[alert, operation]) => {
            bytes.byte(alert);
            bytes.byte(operation);
        }
        (Form::AlertUpdate, &[alert, operation, status]) => {
            bytes.byte(alert);
            bytes.byte(operation);
            bytes.byte_of(status, lists::is_alert_status)?;
        }
        (Form::Detached, &[port, event]) => {
            bytes.byte(port);
            bytes.byte(event);
        }
        (Form::Attached, &[port, event, device, hardware_revision, software_revision]) => {
            bytes.byte(port);
            bytes.byte(event);
            bytes.two_bytes(device);
            bytes.signed_four_bytes(hardware_revision);
            bytes.signed_four_bytes(software_revision);
        }
        (Form::AttachedVirtual, &[port, event, device, port_a, port_b]) => {
            bytes.byte(port);
            bytes.byte(event);
            bytes.two_bytes(device);
            bytes.byte(port_a);
            bytes.byte(port_b);
        }
        (Form::GenericError, &[command_type, error]) => {
            bytes.byte(command_type);
            bytes.byte_of(error, lists::is_error)?;
        }
        _ => other_values(values),
    }
    Ok(())
}
