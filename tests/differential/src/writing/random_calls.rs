use yardstick::{Form, Kind, Way};

use super::call::{Call, OUTPUT};
use super::edges::{edges, outside};
use yardstick::traffic::plausible;
use yardstick::Random;

/// Makes a random call that is nearly or wholly a valid one: that of an accepted message, with something changed now
/// and then.
pub fn near_call(random: &mut Random) -> Call {
    let mut message = Vec::new();
    let mut call = loop {
        let way = plausible(random, &mut message);
        if let Some(call) = Call::writing(way, &message) {
            break call;
        }
    };
    fill_past_count(random, &mut call);
    if random.once_in(16) {
        call.way = random.one_of(&Way::BOTH);
    }
    change_values(random, &mut call);
    change_open(random, &mut call.open);
    if random.once_in(8) {
        call.output = nearby(random, message.len());
    }
    call
}

/// Values of the commands for motors, most of whose fields have lists.
const MOTORS: [(Form, &[u64]); 4] = [
    (Form::StartSpeedForDegrees, &[0x10, 0x11, 0x0C, 360, 50, 1, 100, 126, 3]),
    (Form::GotoAbsolutePosition, &[0x10, 0x11, 0x0D, 360, 50, 100, 126, 3]),
    (
        Form::GotoAbsolutePositions,
        &[0x10, 0x11, 0x0E, 360, 1, 50, 100, 126, 3],
    ),
    (Form::PresetEncoders, &[0x10, 0x11, 0x14, 360, 1]),
];

/// Makes a random call of any form, whose values are any of their kinds, with small ones often. The selectors that the
/// form decides are others now and then. Most values of the commands for motors are right ones.
pub fn any_call(random: &mut Random) -> Call {
    let form = random.one_of(&Form::ALL);
    let value = |&kind: &Kind| match kind {
        Kind::Byte => u64::from(random.byte() & random.one_of(&[0xFF, 0x0F, 0x0F, 0x07])),
        Kind::Fixed(_) if random.once_in(4) => u64::from(random.byte() & random.one_of(&[0xFF, 0x0F, 0x03])),
        _ => of_kind(random, kind),
    };
    let mut values: Vec<u64> = form.kinds().iter().map(value).collect();
    if let Some((_, right)) = MOTORS.iter().find(|(motor, _)| *motor == form) {
        for (value, right) in values.iter_mut().zip(*right) {
            if !random.once_in(8) {
                *value = *right;
            }
        }
    }
    let mut call = Call {
        way: random.one_of(&Way::BOTH),
        form,
        values,
        open: Vec::new(),
        output: random.one_of(&[OUTPUT, OUTPUT, 21, 10, 5]),
    };
    let has_open = matches!(
        form,
        Form::PropertyText
            | Form::ModeText
            | Form::PortValue
            | Form::OutputFeedback
            | Form::ModeDatasets
            | Form::PortValueCombined
    );
    if has_open || random.once_in(8) {
        resize_open(random, &mut call.open, 16);
    }
    // Most bytes are no feedback.
    if form == Form::OutputFeedback && random.once_in(2) {
        call.open.iter_mut().for_each(|byte| *byte &= 0x1F);
    }
    call
}

/// Entries of a 43 past its count may be any.
fn fill_past_count(random: &mut Random, call: &mut Call) {
    if call.form == Form::PortCombinations {
        let count = call.values[2] as usize;
        for entry in &mut call.values[3..][count..] {
            *entry = if random.once_in(2) {
                of_kind(random, Kind::TwoBytes)
            } else {
                random.number()
            };
        }
    }
}

/// Changes a value now and then to another of its kind, to one outside of it, or to the next number.
fn change_values(random: &mut Random, call: &mut Call) {
    for (value, &kind) in call.values.iter_mut().zip(call.form.kinds()) {
        *value = match random.below(48) {
            0 => value.wrapping_add(1),
            1 => value.wrapping_sub(1),
            2 => of_kind(random, kind),
            3 if kind != Kind::SixBytes => random.one_of(&outside(kind)),
            _ => *value,
        };
    }
}

/// Changes the number of open bytes now and then.
fn change_open(random: &mut Random, open: &mut Vec<u8>) {
    match random.below(32) {
        0 => resize_open(random, open, 16),
        1 => resize_open(random, open, 140),
        2 => open.push(0),
        3 => {
            open.pop();
        }
        _ => {}
    }
}

fn resize_open(random: &mut Random, open: &mut Vec<u8>, bound: usize) {
    let length = random.below(bound);
    open.resize_with(length, || random.byte());
}

/// A length next to that of the message, or any.
fn nearby(random: &mut Random, length: usize) -> usize {
    match random.below(4) {
        0 => length - 1,
        1 => length,
        2 => length + 1,
        _ => random.below(OUTPUT),
    }
}

/// A value of a kind: one at its edges, or any.
fn of_kind(random: &mut Random, kind: Kind) -> u64 {
    if random.once_in(4) {
        return random.one_of(&edges(kind));
    }
    let number = random.number();
    match kind {
        Kind::Fixed(value) => value.into(),
        Kind::Byte => number & 0xFF,
        Kind::TwoBytes => number & 0xFFFF,
        Kind::FourBytes | Kind::Float => number & 0xFFFF_FFFF,
        Kind::SignedByte => number as i8 as u64,
        Kind::SignedFourBytes => number as i32 as u64,
        Kind::SixBytes => number >> random.one_of(&[0, 16, 16, 16]),
    }
}
