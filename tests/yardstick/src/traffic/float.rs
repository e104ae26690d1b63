use crate::random::Random;

/// The bits of a random float: often an infinity, a NaN or next to one.
pub(super) fn float(random: &mut Random) -> u32 {
    let sign = (random.number() as u32) & 0x8000_0000;
    let fraction = (random.number() as u32) & 0x007F_FFFF;
    let magnitude = match random.below(16) {
        0 => 0x7F80_0000,
        1 => 0x7F80_0001,
        2 => 0x7FC0_0000,
        3 => 0x7F80_0000 | fraction,
        4 => 0x7F7F_FFFF,
        5 => 0x7F00_0000 | fraction,
        6 => 0,
        7 => 1,
        8 => fraction,
        9 => 0x0080_0000,
        10 => 1.0f32.to_bits(),
        11 => 200.0f32.to_bits(),
        _ => (random.number() as u32) & 0x7FFF_FFFF,
    };
    sign | magnitude
}
