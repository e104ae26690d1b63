use super::messages::{ANSWER_0, ATTACH_0};
use super::table_step::{accepted, handed_out, withheld, TableExample, TableStep};
use crate::answer::State::NothingAsked;
use crate::answer::Value::{Float, Whole};
use crate::way::Way::Up;

// Values of port 0 with six datasets of 8 bits, six of 16 bits, and four of 32 bits.
const NARROW: &str = "0A 00 45 00 FF 01 80 7F 00 81";
const MEDIUM: &str = "10 00 45 00 02 01 FD FF FF 7F 00 80 FF 00 00 FF";
const WIDE: &str = "14 00 45 00 FD FF FF FF 04 03 02 01 00 00 00 80 FF FF FF 7F";

// As WIDE, with high bits that are no signs.
const HIGH_BITS: &str = "14 00 45 00 FF FF FF 00 80 80 80 00 00 00 00 FF FD FF 00 00";

// Four bytes: a finite float, a NaN and an infinity.
const FINITE: &str = "08 00 45 00 FE FF 7F BF";
const NAN: &str = "08 00 45 00 00 00 C0 7F";
const INFINITE: &str = "08 00 45 00 00 00 80 FF";

/// A dataset of port 0 in mode 0 that is a whole number.
const fn whole(message: &'static str, dataset: usize, number: i32) -> TableStep {
    handed_out(message, dataset, [0, 0], NothingAsked, Whole(number))
}

/// Kinds 0, 1 and 2 are signed numbers of 8, 16 and 32 bits, and kind 3 is not.
#[rustfmt::skip]
pub const WHOLE_NUMBERS: &[TableExample] = &[
    TableExample { name: "8 bits, each dataset with its own sign", steps: &[
        accepted(Up, ATTACH_0),
        accepted(Up, ANSWER_0),
        accepted(Up, "0A 00 44 00 00 80 06 00 00 00"),
        whole(NARROW, 0, -1),
        whole(NARROW, 1, 1),
        whole(NARROW, 2, -128),
        whole(NARROW, 3, 127),
        whole(NARROW, 4, 0),
        whole(NARROW, 5, -127),
    ] },
    TableExample { name: "16 bits, little-endian: the sign is in the second byte", steps: &[
        accepted(Up, ATTACH_0),
        accepted(Up, ANSWER_0),
        accepted(Up, "0A 00 44 00 00 80 06 01 00 00"),
        whole(MEDIUM, 0, 258),
        whole(MEDIUM, 1, -3),
        whole(MEDIUM, 2, 32_767),
        whole(MEDIUM, 3, -32_768),
        whole(MEDIUM, 4, 255),
        whole(MEDIUM, 5, -256),
    ] },
    TableExample { name: "32 bits, little-endian: the sign is in the fourth byte", steps: &[
        accepted(Up, ATTACH_0),
        accepted(Up, ANSWER_0),
        accepted(Up, "0A 00 44 00 00 80 04 02 00 00"),
        whole(WIDE, 0, -3),
        whole(WIDE, 1, 16_909_060),
        whole(WIDE, 2, -2_147_483_648),
        whole(WIDE, 3, 2_147_483_647),
        whole(HIGH_BITS, 0, 16_777_215),
        whole(HIGH_BITS, 1, 8_421_504),
        whole(HIGH_BITS, 2, -16_777_216),
        whole(HIGH_BITS, 3, 65_533),
    ] },
    TableExample { name: "the same bytes by each kind: floats are their 32 bits, and any bits are a number", steps: &[
        accepted(Up, ATTACH_0),
        accepted(Up, ANSWER_0),
        accepted(Up, "0A 00 44 00 00 80 04 00 00 00"),
        whole(FINITE, 0, -2),
        whole(FINITE, 1, -1),
        whole(FINITE, 2, 127),
        whole(FINITE, 3, -65),
        accepted(Up, "0A 00 44 00 00 80 02 01 00 00"),
        whole(FINITE, 0, -2),
        whole(FINITE, 1, -16_513),
        accepted(Up, "0A 00 44 00 00 80 01 02 00 00"),
        whole(FINITE, 0, -1_082_130_434),
        whole(NAN, 0, 2_143_289_344),
        whole(INFINITE, 0, -8_388_608),
        accepted(Up, "0A 00 44 00 00 80 01 03 00 00"),
        handed_out(FINITE, 0, [0, 0], NothingAsked, Float(0xBF7F_FFFE)),
        withheld(Up, NAN, 0, 18, 0),
        withheld(Up, INFINITE, 0, 18, 0),
    ] },
];
