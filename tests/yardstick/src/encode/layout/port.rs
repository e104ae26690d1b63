use super::other_values;
use crate::encode::bytes::Bytes;
use crate::form::Form;
use crate::lists;
use crate::refusal::Refusal;

/// Port Information Request, 21; Port Mode Information Request, 22; Port Input Format Setup (Single), 41; Port
/// Information, 43; Port Value (Single), 45; Port Input Format (Single), 47; Virtual Port Setup, 61.
pub(super) fn lay_out(bytes: &mut Bytes, form: Form, values: &[u64]) -> Result<(), Refusal> {
    match (form, values) {
        (Form::PortInformationRequest, &[port, information_type]) => {
            bytes.byte(port);
            bytes.byte_of(information_type, lists::is_port_information_type)?;
        }
        (Form::ModeInformationRequest, &[port, mode, information_type]) => {
            bytes.byte(port);
            bytes.byte_of(mode, lists::is_mode)?;
            bytes.byte_of(information_type, lists::is_mode_information_type)?;
        }
        (Form::InputFormatSetup | Form::InputFormat, &[port, mode, delta, notify]) => {
            bytes.byte(port);
            bytes.byte_of(mode, lists::is_mode)?;
            bytes.four_bytes(delta);
            bytes.byte_of(notify, lists::is_notify)?;
        }
        (Form::PortModes, &[port, information_type, capabilities, mode_count, input_modes, output_modes]) => {
            bytes.byte(port);
            bytes.byte(information_type);
            bytes.byte_of(capabilities, lists::is_port_capabilities)?;
            bytes.byte(mode_count);
            bytes.two_bytes(input_modes);
            bytes.two_bytes(output_modes);
        }
        (Form::PortCombinations, &[port, information_type, count, ref combinations @ ..]) => {
            bytes.byte(port);
            bytes.byte(information_type);
            for &combination in &combinations[..count as usize] {
                bytes.two_bytes(combination);
            }
        }
        (Form::PortValue, &[port]) => bytes.byte(port),
        (Form::VirtualDisconnect, &[sub, port]) => {
            bytes.byte(sub);
            bytes.byte(port);
        }
        (Form::VirtualConnect, &[sub, port_a, port_b]) => {
            bytes.byte(sub);
            bytes.byte(port_a);
            bytes.byte(port_b);
        }
        _ => other_values(values),
    }
    Ok(())
}
