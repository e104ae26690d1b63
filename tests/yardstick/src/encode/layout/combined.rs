use super::other_values;
use crate::encode::bytes::Bytes;
use crate::form::Form;

/// Port Input Format Setup (CombinedMode), 42; Port Value (CombinedMode), 46; Port Input Format (CombinedMode), 48.
pub(super) fn lay_out(bytes: &mut Bytes, form: Form, values: &[u64]) {
    match (form, values) {
        (Form::CombinedSetup, &[port, sub]) => {
            bytes.byte(port);
            bytes.byte(sub);
        }
        (Form::ModeDatasets, &[port, sub, combination]) => {
            bytes.byte(port);
            bytes.byte(sub);
            bytes.byte(combination);
        }
        (Form::PortValueCombined, &[port, pointers]) => {
            bytes.byte(port);
            bytes.two_bytes(pointers);
        }
        (Form::InputFormatCombined, &[port, control, pointers]) => {
            bytes.byte(port);
            bytes.byte(control);
            bytes.two_bytes(pointers);
        }
        _ => other_values(values),
    }
}
