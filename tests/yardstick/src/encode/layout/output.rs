use super::other_values;
use crate::encode::bytes::Bytes;
use crate::form::Form;
use crate::lists;
use crate::refusal::Refusal;

/// Port Output Command, 81.
pub(super) fn command(bytes: &mut Bytes, form: Form, values: &[u64]) -> Result<(), Refusal> {
    let &[port, start, sub, ref payload @ ..] = values else {
        other_values(values)
    };
    bytes.byte(port);
    bytes.byte_of(start, lists::is_start)?;
    bytes.byte(sub);
    match (form, payload) {
        (Form::StartSpeedForDegrees, &[degrees, speed_left, speed_right, power, end_state, profile]) => {
            bytes.signed_four_bytes_in(degrees, lists::DEGREES)?;
            bytes.signed_byte_in(speed_left, lists::SIGNED_SPEEDS)?;
            bytes.signed_byte_in(speed_right, lists::SIGNED_SPEEDS)?;
            power_and_end(bytes, [power, end_state, profile])
        }
        (Form::GotoAbsolutePosition, &[position, speed, power, end_state, profile]) => {
            bytes.signed_four_bytes(position);
            bytes.byte_of(speed, lists::is_speed)?;
            power_and_end(bytes, [power, end_state, profile])
        }
        (Form::GotoAbsolutePositions, &[position_1, position_2, speed, power, end_state, profile]) => {
            bytes.signed_four_bytes(position_1);
            bytes.signed_four_bytes(position_2);
            bytes.byte_of(speed, lists::is_speed)?;
            power_and_end(bytes, [power, end_state, profile])
        }
        (Form::PresetEncoders, &[left_position, right_position]) => {
            bytes.signed_four_bytes(left_position);
            bytes.signed_four_bytes(right_position);
            Ok(())
        }
        _ => other_values(values),
    }
}

fn power_and_end(bytes: &mut Bytes, [power, end_state, profile]: [u64; 3]) -> Result<(), Refusal> {
    bytes.byte_of(power, lists::is_power)?;
    bytes.byte_of(end_state, lists::is_end_state)?;
    bytes.byte_of(profile, lists::is_profile)
}
