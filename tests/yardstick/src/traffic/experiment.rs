use crate::random::Random;

/// Experiment numbers of which two may differ in either byte, or have their bytes exchanged.
const NUMBERS: [u16; 8] = [0, 1, 2, 0x00FF, 0x0100, 0x0102, 0x0201, u16::MAX];

/// A random experiment number: often an edge, so that equal ones come too.
pub fn experiment(random: &mut Random) -> u16 {
    match random.below(3) {
        0 => random.number() as u16,
        _ => random.one_of(&NUMBERS),
    }
}
