//! The floats of a mode's ranges: every sign and exponent, at both places.

use differential::Tally;
use yardstick::Way;

#[test]
fn every_exponent() {
    const FRACTIONS: [u32; 8] = [0, 1, 2, 0x00_8000, 0x3F_FFFF, 0x40_0000, 0x40_0001, 0x7F_FFFF];
    const OTHERS: [u32; 4] = [0, 0x4348_0000, 0x7F80_0000, 0xFFC0_0000];
    let mut tally = Tally::default();
    for information_type in 1..=3 {
        for sign_and_exponent in 0..512 {
            for fraction in FRACTIONS {
                let float = sign_and_exponent << 23 | fraction;
                for other in OTHERS {
                    for [lowest, highest] in [[float, other], [other, float]] {
                        let mut message = [0x0E, 0, 0x44, 0, 0, information_type, 0, 0, 0, 0, 0, 0, 0, 0];
                        message[6..10].copy_from_slice(&lowest.to_le_bytes());
                        message[10..14].copy_from_slice(&highest.to_le_bytes());
                        tally.compare(Way::Up, &message);
                    }
                }
            }
        }
    }
    println!("every exponent: {tally}");
    // Half of the others are finite, and 510 of 512 exponents.
    let all = tally.messages();
    assert_eq!(all, 3 * 512 * 8 * 4 * 2);
    tally.expect_refusals([0], all / 2 * 510 / 512);
    tally.expect_refusals([7], all / 2);
}
