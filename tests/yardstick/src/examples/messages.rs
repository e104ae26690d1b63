//! Messages in hex that several examples offer to a table.

// Plain attachments of ports 0 to 3, device 26.
pub(super) const ATTACH_0: &str = "0F 00 04 00 01 26 00 00 00 00 10 00 00 00 10";
pub(super) const ATTACH_1: &str = "0F 00 04 01 01 26 00 00 00 00 10 00 00 00 10";
pub(super) const ATTACH_2: &str = "0F 00 04 02 01 26 00 00 00 00 10 00 00 00 10";
pub(super) const ATTACH_3: &str = "0F 00 04 03 01 26 00 00 00 00 10 00 00 00 10";

// Virtual attachment of port 10 with members 0 and 1, device 26.
pub(super) const VIRTUAL_10: &str = "09 00 04 10 02 26 00 00 01";

// To and from port 0, with delta 1 and notifications: mode 2 asked and answered, mode 0 asked and answered.
pub(super) const ASK_2: &str = "0A 00 41 00 02 01 00 00 00 01";
pub(super) const ANSWER_2: &str = "0A 00 47 00 02 01 00 00 00 01";
pub(super) const ASK_0: &str = "0A 00 41 00 00 01 00 00 00 01";
pub(super) const ANSWER_0: &str = "0A 00 47 00 00 01 00 00 00 01";

// Formats of port 0: mode 2 has one dataset of 32 bits, mode 0 one of 8 bits.
pub(super) const FORMAT_2: &str = "0A 00 44 00 02 80 01 02 04 00";
pub(super) const FORMAT_0: &str = "0A 00 44 00 00 80 01 00 03 00";

// Commands for motors: both motors of port 10 turn by 360 degrees, go to 90 and -90, and are set to 0; the same to port
// 0; port 0 goes to -3.
pub(super) const TURN_10: &str = "0F 00 81 10 11 0C 68 01 00 00 32 CE 64 7E 03";
pub(super) const GO_10: &str = "12 00 81 10 11 0E 5A 00 00 00 A6 FF FF FF 32 64 7E 03";
pub(super) const PRESET_10: &str = "0E 00 81 10 11 14 00 00 00 00 00 00 00 00";
pub(super) const TURN_0: &str = "0F 00 81 00 11 0C 68 01 00 00 32 CE 64 7E 03";
pub(super) const GO_BOTH_0: &str = "12 00 81 00 11 0E 5A 00 00 00 A6 FF FF FF 32 64 7E 03";
pub(super) const PRESET_0: &str = "0E 00 81 00 11 14 00 00 00 00 00 00 00 00";
pub(super) const GO_0: &str = "0E 00 81 00 11 0D FD FF FF FF 32 64 7E 03";

// Values of port 0: one byte, and four.
pub(super) const VALUE_1: &str = "05 00 45 00 FE";
pub(super) const VALUE_4: &str = "08 00 45 00 05 00 00 00";
