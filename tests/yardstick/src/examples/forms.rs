use super::{accepted, with_open, Example};
use crate::form::Form;
use crate::way::Way::{Down, Up};

/// Accepted messages: every form, each way it goes, with its edges. A form's values are told apart by their bytes.
#[rustfmt::skip]
pub const FORMS: &[Example] = &[
    // 01 without payload.
    accepted(Down, "05 00 01 01 02", Form::PropertyCommand, &[1, 2]),
    accepted(Down, "05 00 01 05 03", Form::PropertyCommand, &[5, 3]),
    accepted(Down, "05 00 01 0C 04", Form::PropertyCommand, &[12, 4]),
    accepted(Down, "05 00 01 0F 05", Form::PropertyCommand, &[15, 5]),
    // 01 with a text.
    with_open(Down, "0A 00 01 01 01 4D 6F 74 6F 72", Form::PropertyText, &[1, 1], 5..10),
    with_open(Up, "06 00 01 01 06 41", Form::PropertyText, &[1, 6], 5..6),
    with_open(Up, "13 00 01 01 06 31 32 33 34 35 36 37 38 39 30 31 32 33 34", Form::PropertyText, &[1, 6], 5..19),
    with_open(Up, "14 00 01 08 06 4C 45 47 4F 20 53 79 73 74 65 6D 20 41 2F 53", Form::PropertyText, &[8, 6], 5..20),
    with_open(Up, "09 00 01 09 06 37 2E 31 65", Form::PropertyText, &[9, 6], 5..9),
    // 01 with one byte.
    accepted(Up, "06 00 01 02 06 01", Form::PropertyByte, &[2, 6, 1]),
    accepted(Up, "06 00 01 06 06 64", Form::PropertyByte, &[6, 6, 100]),
    accepted(Up, "06 00 01 07 06 01", Form::PropertyByte, &[7, 6, 1]),
    accepted(Up, "06 00 01 0B 06 FF", Form::PropertyByte, &[11, 6, 255]),
    accepted(Down, "06 00 01 0C 01 FB", Form::PropertyByte, &[12, 1, 251]),
    accepted(Up, "06 00 01 0C 06 00", Form::PropertyByte, &[12, 6, 0]),
    accepted(Down, "06 00 01 0F 01 08", Form::PropertyByte, &[15, 1, 8]),
    accepted(Up, "06 00 01 0F 06 08", Form::PropertyByte, &[15, 6, 8]),
    // 01 with a signed byte, here -60.
    accepted(Up, "06 00 01 05 06 C4", Form::PropertyRssi, &[5, 6, -60_i64 as u64]),
    // 01 with a version: 1.7.37.1510, and -1.
    accepted(Up, "09 00 01 03 06 10 15 37 17", Form::PropertyVersion, &[3, 6, 0x1737_1510]),
    accepted(Up, "09 00 01 04 06 FF FF FF FF", Form::PropertyVersion, &[4, 6, -1_i64 as u64]),
    // 01 with the protocol version 3.0.
    accepted(Up, "07 00 01 0A 06 00 03", Form::PropertyProtocol, &[10, 6, 0x0300]),
    // 01 with a MAC address.
    accepted(Up, "0B 00 01 0D 06 00 16 53 A1 B2 C3", Form::PropertyAddress, &[13, 6, 0x0016_53A1_B2C3]),
    accepted(Up, "0B 00 01 0E 06 FE 16 53 A1 B2 C3", Form::PropertyAddress, &[14, 6, 0xFE16_53A1_B2C3]),
    // 02.
    accepted(Down, "04 00 02 01", Form::HubAction, &[0x01]),
    accepted(Down, "04 00 02 06", Form::HubAction, &[0x06]),
    accepted(Down, "04 00 02 2F", Form::HubAction, &[0x2F]),
    accepted(Up, "04 00 02 30", Form::HubAction, &[0x30]),
    accepted(Up, "04 00 02 32", Form::HubAction, &[0x32]),
    // 03.
    accepted(Down, "05 00 03 01 03", Form::AlertCommand, &[1, 3]),
    accepted(Down, "05 00 03 04 01", Form::AlertCommand, &[4, 1]),
    accepted(Up, "06 00 03 02 04 FF", Form::AlertUpdate, &[2, 4, 0xFF]),
    accepted(Up, "06 00 03 04 04 00", Form::AlertUpdate, &[4, 4, 0]),
    // 04.
    accepted(Up, "05 00 04 32 00", Form::Detached, &[50, 0]),
    accepted(Up, "0F 00 04 FF 01 27 01 78 56 34 12 EF CD AB 90",
        Form::Attached, &[255, 1, 0x0127, 0x1234_5678, -0x6F54_3211_i64 as u64]),
    accepted(Up, "09 00 04 39 02 27 01 37 38", Form::AttachedVirtual, &[0x39, 2, 0x0127, 0x37, 0x38]),
    // 05: the command type may be any.
    accepted(Up, "05 00 05 00 01", Form::GenericError, &[0, 1]),
    accepted(Up, "05 00 05 41 08", Form::GenericError, &[0x41, 8]),
    // 10 to 13.
    accepted(Down, "0C 00 10 4C 50 46 32 2D 42 6F 6F 74", Form::GoIntoBootMode, &[]),
    accepted(Down, "0B 00 11 4C 6F 63 6B 20 4D 65 6D", Form::LockMemory, &[]),
    accepted(Down, "03 00 12", Form::LockStatusRequest, &[]),
    accepted(Up, "04 00 13 FF", Form::LockStatus, &[0xFF]),
    accepted(Up, "04 00 13 55", Form::LockStatus, &[0x55]),
    // 21 and 22.
    accepted(Down, "05 00 21 03 02", Form::PortInformationRequest, &[3, 2]),
    accepted(Down, "06 00 22 03 0F 80", Form::ModeInformationRequest, &[3, 15, 0x80]),
    accepted(Down, "06 00 22 FF 00 05", Form::ModeInformationRequest, &[255, 0, 5]),
    // 41.
    accepted(Down, "0A 00 41 32 0F 12 34 56 78 00", Form::InputFormatSetup, &[0x32, 15, 0x7856_3412, 0]),
    // 43: modes, and one, three and eight combinations.
    accepted(Up, "0B 00 43 02 01 0F FF 1E 2F 1F 80", Form::PortModes, &[2, 1, 15, 255, 0x2F1E, 0x801F]),
    accepted(Up, "07 00 43 01 02 16 80", Form::PortCombinations, &[1, 2, 1, 0x8016, 0, 0, 0, 0, 0, 0, 0]),
    accepted(Up, "0B 00 43 01 02 16 00 03 00 09 01",
        Form::PortCombinations, &[1, 2, 3, 0x16, 0x03, 0x0109, 0, 0, 0, 0, 0]),
    accepted(Up, "15 00 43 FF 02 01 10 02 20 03 30 04 40 05 50 06 60 07 70 08 80", Form::PortCombinations,
        &[255, 2, 8, 0x1001, 0x2002, 0x3003, 0x4004, 0x5005, 0x6006, 0x7007, 0x8008]),
    // 44: a name, a name of one byte, the longest name, a symbol, the longest symbol.
    with_open(Up, "0B 00 44 00 01 00 53 50 45 45 44", Form::ModeText, &[0, 1, 0], 6..11),
    with_open(Up, "07 00 44 03 0F 00 00", Form::ModeText, &[3, 15, 0], 6..7),
    with_open(Up, "11 00 44 01 02 00 41 42 43 44 45 46 47 48 49 4A 4B", Form::ModeText, &[1, 2, 0], 6..17),
    with_open(Up, "09 00 44 00 02 04 44 45 47", Form::ModeText, &[0, 2, 4], 6..9),
    with_open(Up, "0B 00 44 00 02 04 41 42 43 44 45", Form::ModeText, &[0, 2, 4], 6..11),
    // 44: the ranges -100 to 100, the least to the greatest float, and -0 to the least above 0.
    accepted(Up, "0E 00 44 01 03 01 00 00 C8 C2 00 00 C8 42", Form::ModeRange, &[1, 3, 1, 0xC2C8_0000, 0x42C8_0000]),
    accepted(Up, "0E 00 44 01 04 02 FF FF 7F FF FF FF 7F 7F", Form::ModeRange, &[1, 4, 2, 0xFF7F_FFFF, 0x7F7F_FFFF]),
    accepted(Up, "0E 00 44 01 05 03 00 00 00 80 01 00 00 00", Form::ModeRange, &[1, 5, 3, 0x8000_0000, 1]),
    // 44: mapping, bias, capability bits, value format.
    accepted(Up, "08 00 44 00 02 05 10 48", Form::ModeMapping, &[0, 2, 5, 0x4810]),
    accepted(Up, "07 00 44 00 01 07 64", Form::ModeBias, &[0, 1, 7, 100]),
    accepted(Up, "0C 00 44 01 00 08 F1 02 03 04 05 06", Form::ModeCapabilities, &[1, 0, 8, 0xF102_0304_0506]),
    accepted(Up, "0A 00 44 04 0F 80 10 03 FF FE", Form::ValueFormat, &[4, 15, 0x80, 16, 3, 255, 254]),
    // 45: one value byte, and a dozen.
    with_open(Up, "05 00 45 3F 00", Form::PortValue, &[63], 4..5),
    with_open(Up, "10 00 45 01 00 00 80 3F 00 00 00 40 00 00 C0 7F", Form::PortValue, &[1], 4..16),
    // 47.
    accepted(Up, "0A 00 47 32 0F 12 34 56 F8 01", Form::InputFormat, &[0x32, 15, 0xF856_3412, 1]),
    // 61.
    accepted(Down, "05 00 61 00 10", Form::VirtualDisconnect, &[0, 0x10]),
    accepted(Down, "06 00 61 01 04 05", Form::VirtualConnect, &[1, 4, 5]),
    // 81: degrees, two speeds, power, end state and profile. 360 degrees there and back; the least; the most.
    accepted(Down, "0F 00 81 10 11 0C 68 01 00 00 32 CE 64 7E 03",
        Form::StartSpeedForDegrees, &[0x10, 0x11, 0x0C, 360, 50, -50_i64 as u64, 100, 126, 3]),
    accepted(Down, "0F 00 81 00 00 0C 00 00 00 00 9C 9C 00 00 00",
        Form::StartSpeedForDegrees, &[0, 0, 0x0C, 0, -100_i64 as u64, -100_i64 as u64, 0, 0, 0]),
    accepted(Down, "0F 00 81 FF 10 0C 80 96 98 00 64 64 64 7F 03",
        Form::StartSpeedForDegrees, &[255, 0x10, 0x0C, 10_000_000, 100, 100, 100, 127, 3]),
    // 81: a position, speed, power, end state and profile.
    accepted(Down, "0E 00 81 03 01 0D 04 03 02 81 01 64 7F 02",
        Form::GotoAbsolutePosition, &[3, 0x01, 0x0D, -0x7EFD_FCFC_i64 as u64, 1, 100, 127, 2]),
    accepted(Down, "0E 00 81 00 10 0D FF FF FF 7F 64 00 00 01",
        Form::GotoAbsolutePosition, &[0, 0x10, 0x0D, 0x7FFF_FFFF, 100, 0, 0, 1]),
    // 81: two positions, speed, power, end state and profile.
    accepted(Down, "12 00 81 10 11 0E 5A 00 00 00 A6 FF FF FF 32 64 7E 03",
        Form::GotoAbsolutePositions, &[0x10, 0x11, 0x0E, 90, -90_i64 as u64, 50, 100, 126, 3]),
    accepted(Down, "12 00 81 11 00 0E 00 00 00 80 FF FF FF 7F 01 00 00 00",
        Form::GotoAbsolutePositions, &[0x11, 0, 0x0E, -0x8000_0000_i64 as u64, 0x7FFF_FFFF, 1, 0, 0, 0]),
    // 81: two positions of encoders.
    accepted(Down, "0E 00 81 10 11 14 FD FF FF FF 04 03 02 01",
        Form::PresetEncoders, &[0x10, 0x11, 0x14, -3_i64 as u64, 0x0102_0304]),
    accepted(Down, "0E 00 81 39 01 14 00 00 00 00 00 00 00 80",
        Form::PresetEncoders, &[0x39, 0x01, 0x14, 0, -0x8000_0000_i64 as u64]),
    // 82: one pair of port and feedback, three, and four with a port twice.
    with_open(Up, "05 00 82 10 0A", Form::OutputFeedback, &[], 3..5),
    with_open(Up, "09 00 82 00 01 FF 1F 10 00", Form::OutputFeedback, &[], 3..9),
    with_open(Up, "0B 00 82 01 02 01 04 00 08 02 10", Form::OutputFeedback, &[], 3..11),
    // 42: the sub commands that leave the list alone.
    accepted(Down, "05 00 42 00 02", Form::CombinedSetup, &[0, 2]),
    accepted(Down, "05 00 42 3C 03", Form::CombinedSetup, &[0x3C, 3]),
    accepted(Down, "05 00 42 01 04", Form::CombinedSetup, &[1, 4]),
    accepted(Down, "05 00 42 FF 06", Form::CombinedSetup, &[255, 6]),
    // 42: a list of one entry, which may be 0; of two, one equal to the combination index; of sixteen.
    with_open(Down, "07 00 42 00 01 00 00", Form::ModeDatasets, &[0, 1, 0], 6..7),
    with_open(Down, "08 00 42 03 01 10 10 21", Form::ModeDatasets, &[3, 1, 16], 6..8),
    with_open(Down, "16 00 42 FF 01 FF 0F 1E 2D 3C 4B 5A 69 78 87 96 A5 B4 C3 D2 E1 F0",
        Form::ModeDatasets, &[255, 1, 255], 6..22),
    // 46: one value byte, three, and a dozen; any pointers, none too.
    with_open(Up, "07 00 46 3F 00 80 00", Form::PortValueCombined, &[63, 0x8000], 6..7),
    with_open(Up, "09 00 46 00 03 00 80 FE FF", Form::PortValueCombined, &[0, 3], 6..9),
    with_open(Up, "12 00 46 01 00 00 00 00 80 3F 00 00 00 40 00 00 C0 7F", Form::PortValueCombined, &[1, 0], 6..18),
    // 48: any control byte, any pointers.
    accepted(Up, "07 00 48 01 FF 03 80", Form::InputFormatCombined, &[1, 255, 0x8003]),
    accepted(Up, "07 00 48 FF 00 00 00", Form::InputFormatCombined, &[255, 0, 0]),
];
