//! The values that the rules allow for each field and for the length of each open part. Reading and writing share them.

use std::ops::RangeInclusive;

use crate::way::Way;

const SET: u8 = 1;
const UPDATE: u8 = 6;

pub(crate) fn is_property(property: u8) -> bool {
    matches!(property, 1..=15)
}

/// Whether a property permits an operation, and the operation goes this way.
pub(crate) fn is_operation(way: Way, property: u8, operation: u8) -> bool {
    operations(property).contains(&operation) && way_of(operation) == way
}

/// The operations that a property permits, of Set 1, Enable 2, Disable 3, Reset 4, Request 5 and Update 6.
fn operations(property: u8) -> &'static [u8] {
    match property {
        1 => &[1, 2, 3, 4, 5, 6],
        2 | 5 | 6 => &[2, 3, 5, 6],
        12 => &[1, 4, 5, 6],
        15 => &[1, 5, 6],
        _ => &[5, 6],
    }
}

/// The way that an operation goes.
fn way_of(operation: u8) -> Way {
    if operation == UPDATE {
        Way::Up
    } else {
        Way::Down
    }
}

/// Whether an operation on a property carries a payload.
pub(crate) fn carries_payload(operation: u8) -> bool {
    operation == SET || operation == UPDATE
}

/// The payloads of a property that has one byte.
pub(crate) fn property_bytes(property: u8) -> RangeInclusive<u8> {
    match property {
        2 | 7 => 0..=1,
        6 => 0..=100,
        11 | 12 => 0..=255,
        15 => 0..=8,
        _ => unreachable!("property {property} has no payload of one byte"),
    }
}

/// The lengths of a property that has a text.
pub(crate) fn property_text_lengths(property: u8) -> RangeInclusive<usize> {
    match property {
        1 => 1..=14,
        8 | 9 => 1..=122,
        _ => unreachable!("property {property} has no text"),
    }
}

pub(crate) fn is_action(way: Way, action: u8) -> bool {
    match way {
        Way::Down => matches!(action, 0x01..=0x06 | 0x2F),
        Way::Up => matches!(action, 0x30..=0x32),
    }
}

pub(crate) fn is_alert(alert: u8) -> bool {
    matches!(alert, 1..=4)
}

pub(crate) fn is_alert_operation(way: Way, operation: u8) -> bool {
    match way {
        Way::Down => matches!(operation, 1..=3),
        Way::Up => operation == 4,
    }
}

pub(crate) fn is_alert_status(status: u8) -> bool {
    matches!(status, 0x00 | 0xFF)
}

/// The events of a port: detached, attached, attached as a virtual one.
pub(crate) fn is_event(event: u8) -> bool {
    event <= 2
}

pub(crate) fn is_error(error: u8) -> bool {
    matches!(error, 1..=8)
}

/// The information types that a port is asked for.
pub(crate) fn is_port_information_type(information_type: u8) -> bool {
    information_type <= 2
}

/// The information types that a port tells: its modes, and their combinations.
pub(crate) fn is_port_information(information_type: u8) -> bool {
    matches!(information_type, 1 | 2)
}

pub(crate) fn is_port_capabilities(capabilities: u8) -> bool {
    capabilities <= 15
}

pub(crate) fn is_mode(mode: u8) -> bool {
    mode <= 15
}

/// The information types of a mode. Type 6 is used within the hub only.
pub(crate) fn is_mode_information_type(information_type: u8) -> bool {
    matches!(information_type, 0..=5 | 7 | 8 | 0x80)
}

/// The lengths of a mode's name, information type 0, and of its symbol, 4.
pub(crate) fn mode_text_lengths(information_type: u8) -> RangeInclusive<usize> {
    match information_type {
        0 => 1..=11,
        4 => 1..=5,
        _ => unreachable!("information type {information_type:02X} has no text"),
    }
}

pub(crate) fn is_bias(bias: u8) -> bool {
    bias <= 100
}

pub(crate) fn is_datasets(datasets: u8) -> bool {
    matches!(datasets, 1..=16)
}

/// The kinds of a dataset: 8, 16 and 32 bits, and float.
pub(crate) fn is_dataset_kind(kind: u8) -> bool {
    kind <= 3
}

pub(crate) fn is_notify(notify: u8) -> bool {
    notify <= 1
}

/// The subs of a virtual port's setup: disconnect and connect.
pub(crate) fn is_sub(sub: u8) -> bool {
    sub <= 1
}

/// The subs of an output command that are covered: StartSpeedForDegrees, GotoAbsolutePosition for one motor and for
/// two, PresetEncoder for two.
pub(crate) fn is_motor_sub(sub: u8) -> bool {
    matches!(sub, 0x0C | 0x0D | 0x0E | 0x14)
}

/// Startup in the high half, completion in the low one.
pub(crate) fn is_start(start: u8) -> bool {
    let [startup, completion] = [start / 16, start % 16];
    startup <= 1 && completion <= 1
}

/// The degrees to turn. The direction is not theirs.
pub(crate) const DEGREES: RangeInclusive<i64> = 0..=10_000_000;

/// The speeds of two motors in percent, their sign the direction.
pub(crate) const SIGNED_SPEEDS: RangeInclusive<i64> = -100..=100;

/// The speed in percent of motors that go to a position.
pub(crate) fn is_speed(speed: u8) -> bool {
    matches!(speed, 1..=100)
}

/// The greatest power in percent.
pub(crate) fn is_power(power: u8) -> bool {
    power <= 100
}

/// What motors do at the end: float, hold, brake.
pub(crate) fn is_end_state(end_state: u8) -> bool {
    matches!(end_state, 0 | 126 | 127)
}

/// The profiles in use: a bit for acceleration, a bit for deceleration.
pub(crate) fn is_profile(profile: u8) -> bool {
    profile <= 3
}

/// The sub commands of a combined setup: 1 sets the list, 2 to 4 and 6 lock, start and reset the device.
pub(crate) fn is_combined_sub(sub: u8) -> bool {
    matches!(sub, 1..=4 | 6)
}

/// How many entries a list has.
pub(crate) const ENTRIES: RangeInclusive<usize> = 1..=16;

/// The index of the first entry that stood in the list before.
pub(crate) fn first_repeat(entries: &[u8]) -> Option<usize> {
    (0..entries.len()).find(|&index| entries[..index].contains(&entries[index]))
}

/// Five bits of feedback.
pub(crate) fn is_feedback(feedback: u8) -> bool {
    feedback <= 0x1F
}
