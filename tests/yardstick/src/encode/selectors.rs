use super::message_type::message_type;
use crate::form::Form;
use crate::lists;
use crate::message::Message;
use crate::refusal::Refusal;
use crate::way::Way;

/// Judges the selectors left to right, each by its list. Selectors of another form than the message's are refused at
/// the last of them.
pub(super) fn judge(way: Way, message: Message) -> Result<(), Refusal> {
    let form = message.form();
    let (last, form_of_selectors) = match (message_type(form), message.values()) {
        (0x01, &[property, operation, ..]) => {
            let property = listed(property, 3, lists::is_property)?;
            let operation = listed(operation, 4, |it| lists::is_operation(way, property, it))?;
            (4, form_of_property(property, operation))
        }
        (0x02, &[action, ..]) => {
            listed(action, 3, |it| lists::is_action(way, it))?;
            (3, Form::HubAction)
        }
        (0x03, &[alert, operation, ..]) => {
            listed(alert, 3, lists::is_alert)?;
            let operation = listed(operation, 4, |it| lists::is_alert_operation(way, it))?;
            (4, form_of_alert(operation))
        }
        (0x04, &[_, event, ..]) => (4, form_of_event(listed(event, 4, lists::is_event)?)),
        (0x42, &[_, sub, ..]) => (4, form_of_combined_sub(listed(sub, 4, lists::is_combined_sub)?)),
        (0x43, &[_, information_type, ..]) => {
            let information_type = listed(information_type, 4, lists::is_port_information)?;
            (4, form_of_port_information(information_type))
        }
        (0x44, &[_, _, information_type, ..]) => {
            let information_type = listed(information_type, 5, lists::is_mode_information_type)?;
            (5, form_of_mode_information(information_type))
        }
        (0x61, &[sub, ..]) => (3, form_of_sub(listed(sub, 3, lists::is_sub)?)),
        (0x81, &[_, _, sub, ..]) => (5, form_of_motor_sub(listed(sub, 5, lists::is_motor_sub)?)),
        // The other types have no selector.
        _ => return Ok(()),
    };
    if form == form_of_selectors {
        Ok(())
    } else {
        Err(Refusal::field(last))
    }
}

/// Judges the selector at a place. A number wider than a byte is in no list.
fn listed(number: u64, place: usize, is_listed: impl Fn(u8) -> bool) -> Result<u8, Refusal> {
    match u8::try_from(number) {
        Ok(byte) if is_listed(byte) => Ok(byte),
        _ => Err(Refusal::field(place)),
    }
}

fn form_of_property(property: u8, operation: u8) -> Form {
    if !lists::carries_payload(operation) {
        return Form::PropertyCommand;
    }
    match property {
        1 | 8 | 9 => Form::PropertyText,
        3 | 4 => Form::PropertyVersion,
        5 => Form::PropertyRssi,
        10 => Form::PropertyProtocol,
        13 | 14 => Form::PropertyAddress,
        _ => Form::PropertyByte,
    }
}

fn form_of_alert(operation: u8) -> Form {
    if operation == 4 {
        Form::AlertUpdate
    } else {
        Form::AlertCommand
    }
}

fn form_of_event(event: u8) -> Form {
    match event {
        0 => Form::Detached,
        1 => Form::Attached,
        _ => Form::AttachedVirtual,
    }
}

fn form_of_combined_sub(sub: u8) -> Form {
    if sub == 1 {
        Form::ModeDatasets
    } else {
        Form::CombinedSetup
    }
}

fn form_of_port_information(information_type: u8) -> Form {
    if information_type == 1 {
        Form::PortModes
    } else {
        Form::PortCombinations
    }
}

fn form_of_mode_information(information_type: u8) -> Form {
    match information_type {
        0 | 4 => Form::ModeText,
        1..=3 => Form::ModeRange,
        5 => Form::ModeMapping,
        7 => Form::ModeBias,
        8 => Form::ModeCapabilities,
        _ => Form::ValueFormat,
    }
}

fn form_of_sub(sub: u8) -> Form {
    if sub == 0 {
        Form::VirtualDisconnect
    } else {
        Form::VirtualConnect
    }
}

fn form_of_motor_sub(sub: u8) -> Form {
    match sub {
        0x0C => Form::StartSpeedForDegrees,
        0x0D => Form::GotoAbsolutePosition,
        0x0E => Form::GotoAbsolutePositions,
        _ => Form::PresetEncoders,
    }
}
