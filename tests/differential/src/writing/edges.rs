use yardstick::Kind;

/// A signed number in two's complement of 64 bits.
const fn signed(number: i64) -> u64 {
    number as u64
}

/// Values of a kind at its edges, and for bytes at those of some lists.
pub fn edges(kind: Kind) -> Vec<u64> {
    match kind {
        Kind::Fixed(value) => vec![value.into()],
        Kind::Byte => vec![0, 1, 4, 15, 16, 17, 101, 255],
        Kind::TwoBytes => vec![0, 1, 0x00FF, 0x0100, 0x7FFF, 0x8000, 0xFFFE, 0xFFFF],
        Kind::FourBytes => vec![
            0,
            1,
            0xFFFF,
            0x1_0000,
            0x7FFF_FFFF,
            0x8000_0000,
            0xFFFF_FFFE,
            0xFFFF_FFFF,
        ],
        Kind::SignedByte => [-128, -127, -1, 0, 1, 126, 127].map(signed).to_vec(),
        Kind::SignedFourBytes => [-0x8000_0000, -0x7FFF_FFFF, -1, 0, 1, 0x7FFF_FFFE, 0x7FFF_FFFF]
            .map(signed)
            .to_vec(),
        Kind::SixBytes => {
            let most = (1 << 48) - 1;
            vec![
                0,
                1,
                1 << 40,
                1 << 47,
                most - 1,
                most,
                most + 1,
                most + 2,
                1 << 63,
                u64::MAX - 1,
                u64::MAX,
            ]
        }
        Kind::Float => vec![
            0x0000_0000, // 0
            0x0000_0001, // the least above 0
            0x4348_0000, // 200
            0x7F7F_FFFF, // the greatest
            0x7F80_0000, // infinity
            0x7F80_0001, // a NaN, signalling
            0x7FC0_0000, // a NaN, quiet
            0x7FFF_FFFF, // a NaN
            0x8000_0000, // -0
            0xFF7F_FFFF, // the least
            0xFF80_0000, // -infinity
            0xFFC0_0000, // a NaN with its sign
            0xFFFF_FFFF, // a NaN with its sign
        ],
    }
}

/// Numbers that aren't values of a kind: next to its edges, and equal to a value in the low bits.
pub fn outside(kind: Kind) -> Vec<u64> {
    match kind {
        Kind::Fixed(value) => {
            let value = u64::from(value);
            vec![
                value.wrapping_sub(1),
                value + 1,
                value ^ 0x80,
                value | 1 << 8,
                value | 1 << 32,
                value | 1 << 63,
            ]
        }
        Kind::Byte => vec![1 << 8, 1 << 8 | 1, 1 << 16 | 6, 1 << 32 | 1, 1 << 63, signed(-1)],
        Kind::TwoBytes => vec![1 << 16, 1 << 16 | 1, 1 << 32 | 1, 1 << 63, signed(-1)],
        Kind::FourBytes => vec![1 << 32, 1 << 32 | 1, 1 << 63, signed(-1)],
        // Floats beyond 32 bits, among them one that is no NaN in its low bits.
        Kind::Float => vec![
            1 << 32,
            1 << 32 | 0x4348_0000,
            1 << 63,
            signed(-0x8000_0000),
            signed(-1),
        ],
        Kind::SignedByte => {
            vec![
                128,
                255,
                signed(-129),
                0xFF80,
                0xFFFF_FFFF,
                1 << 32,
                1 << 63,
                1 << 63 | 1,
                (1 << 63) - 1,
            ]
        }
        Kind::SignedFourBytes => {
            let least = -0x8000_0000;
            vec![
                0x8000_0000,
                0xFFFF_FFFF,
                signed(least - 1),
                1 << 32,
                1 << 63,
                1 << 63 | 1,
                (1 << 63) - 1,
            ]
        }
        Kind::SixBytes => vec![],
    }
}

#[cfg(test)]
mod tests {
    use yardstick::{Form, Kind};

    use super::{edges, outside};

    #[test]
    fn edges_are_of_their_kind_and_outside_is_not() {
        for &kind in Form::ALL.iter().flat_map(|form| form.kinds()) {
            assert!(edges(kind).iter().all(|&value| kind.holds(value)), "{kind:?}");
            assert!(!outside(kind).iter().any(|&value| kind.holds(value)), "{kind:?}");
            assert!(kind == Kind::SixBytes || !outside(kind).is_empty(), "{kind:?}");
        }
    }
}
