use crate::decoded::Decoded;
use crate::fields::Fields;
use crate::form::Form;
use crate::header;
use crate::lists;
use crate::refusal::Refusal;

/// Port Output Command, 81: the commands for motors. The sub is a selector, so it is judged before the start byte to
/// its left.
pub(crate) fn command(fields: Fields) -> Result<Decoded, Refusal> {
    fields.selectors_up_to(5)?;
    match fields.listed_at(5, lists::is_motor_sub)? {
        0x0C => start_speed_for_degrees(fields),
        0x0D => goto_absolute_position(fields),
        0x0E => goto_absolute_positions(fields),
        _ => preset_encoders(fields),
    }
}

fn start_speed_for_degrees(mut fields: Fields) -> Result<Decoded, Refusal> {
    fields.size_is(15)?;
    common_part(&mut fields)?;
    fields.signed_four_bytes_in(lists::DEGREES)?;
    fields.signed_byte_in(lists::SIGNED_SPEEDS)?; // left
    fields.signed_byte_in(lists::SIGNED_SPEEDS)?; // right
    power_and_end(&mut fields)?;
    fields.accept(Form::StartSpeedForDegrees)
}

fn goto_absolute_position(mut fields: Fields) -> Result<Decoded, Refusal> {
    fields.size_is(14)?;
    common_part(&mut fields)?;
    fields.signed_four_bytes(); // position
    fields.byte_of(lists::is_speed)?;
    power_and_end(&mut fields)?;
    fields.accept(Form::GotoAbsolutePosition)
}

fn goto_absolute_positions(mut fields: Fields) -> Result<Decoded, Refusal> {
    fields.size_is(18)?;
    common_part(&mut fields)?;
    fields.signed_four_bytes(); // position 1
    fields.signed_four_bytes(); // position 2
    fields.byte_of(lists::is_speed)?;
    power_and_end(&mut fields)?;
    fields.accept(Form::GotoAbsolutePositions)
}

fn preset_encoders(mut fields: Fields) -> Result<Decoded, Refusal> {
    fields.size_is(14)?;
    common_part(&mut fields)?;
    fields.signed_four_bytes(); // left position
    fields.signed_four_bytes(); // right position
    fields.accept(Form::PresetEncoders)
}

/// Port, start byte and sub.
fn common_part(fields: &mut Fields) -> Result<(), Refusal> {
    fields.port();
    fields.byte_of(lists::is_start)?;
    fields.byte();
    Ok(())
}

/// Power, end state and profile, which are last where there are any.
fn power_and_end(fields: &mut Fields) -> Result<(), Refusal> {
    fields.byte_of(lists::is_power)?;
    fields.byte_of(lists::is_end_state)?;
    fields.byte_of(lists::is_profile)?;
    Ok(())
}

/// The size of feedback about one port.
const ONE_PAIR: usize = 5;

/// Port Output Command Feedback, 82: pairs of port and feedback, which are handed back as they are.
pub(crate) fn feedback(fields: Fields) -> Result<Decoded, Refusal> {
    let size = fields.size();
    if size < ONE_PAIR || !(size - header::SIZE).is_multiple_of(2) {
        return Err(Refusal::size(ONE_PAIR));
    }
    for port in (header::SIZE..size).step_by(2) {
        fields.listed_at(port + 1, lists::is_feedback)?;
    }
    fields.accept_open(Form::OutputFeedback)
}
