use super::{accepted, refused, with_open, Example};
use crate::form::Form;
use crate::way::Way::{Down, Up};

/// The bench examples and the log example of the rules, as far as they concern reading one message.
#[rustfmt::skip]
pub const BENCH: &[Example] = &[
    refused(Down, "", 1, 0),
    refused(Up, "", 1, 0),
    refused(Down, "80", 2, 0),
    refused(Up, "80", 2, 0),
    refused(Down, "04 00 02", 3, 0),
    refused(Up, "04 00 02", 3, 0),
    refused(Down, "03 01 12", 4, 1),
    refused(Up, "03 01 12", 4, 1),
    accepted(Down, "03 00 12", Form::LockStatusRequest, &[]),
    refused(Up, "03 00 12", 5, 2),
    refused(Down, "03 00 02", 6, 4),
    refused(Down, "04 00 02 07", 7, 3),
    refused(Down, "05 00 02 01 00", 6, 4),
    accepted(Down, "05 00 01 02 05", Form::PropertyCommand, &[2, 5]),
    refused(Down, "05 00 01 03 02", 7, 4),
    accepted(Down, "0C 00 10 4C 50 46 32 2D 42 6F 6F 74", Form::GoIntoBootMode, &[]),
    refused(Down, "0C 00 10 4C 50 46 32 2D 42 6F 6F 75", 7, 11),
    // The range from 0 to 200: 0.0 is 00000000 and 200.0 is 43480000.
    accepted(Up, "0E 00 44 00 00 01 00 00 00 00 00 00 48 43", Form::ModeRange, &[0, 0, 1, 0, 0x4348_0000]),
    refused(Up, "0E 00 44 00 00 01 00 00 00 00 00 00 80 7F", 7, 10),
    // A virtual port of two different members, and of one member named twice: only a table refuses the latter.
    accepted(Up, "09 00 04 10 02 26 00 00 01", Form::AttachedVirtual, &[0x10, 2, 0x26, 0, 1]),
    accepted(Up, "09 00 04 10 02 26 00 00 00", Form::AttachedVirtual, &[0x10, 2, 0x26, 0, 0]),
    // The records of the log example; the first 45 is refused by a table only.
    accepted(Up, "0F 00 04 00 01 26 00 00 00 00 10 00 00 00 10",
        Form::Attached, &[0, 1, 0x26, 0x1000_0000, 0x1000_0000]),
    accepted(Up, "0A 00 44 00 02 80 01 02 04 00", Form::ValueFormat, &[0, 2, 0x80, 1, 2, 4, 0]),
    with_open(Up, "08 00 45 00 05 00 00 00", Form::PortValue, &[0], 4..8),
    accepted(Down, "0A 00 41 00 02 01 00 00 00 01", Form::InputFormatSetup, &[0, 2, 1, 1]),
    accepted(Up, "0A 00 47 00 02 01 00 00 00 01", Form::InputFormat, &[0, 2, 1, 1]),
];
