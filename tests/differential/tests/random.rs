//! Random messages. The seeds are fixed, so every run compares the same ones.

use differential::{known_types, plausible, Random, Tally};
use yardstick::Way;

#[test]
fn plausible_messages() {
    let mut random = Random::new(1);
    let mut tally = Tally::default();
    let mut message = Vec::new();
    for _ in 0..3_000_000 {
        let way = plausible(&mut random, &mut message);
        tally.compare(way, &message);
    }
    println!("plausible messages: {tally}");
    tally.expect_refusals([0], 1_000_000);
    tally.expect_refusals([1], 1000);
    tally.expect_refusals(2..=7, 10_000);
    tally.expect_forms(5_000);
    tally.expect_wrong_sizes(100);
}

#[test]
fn random_contents_after_a_right_header() {
    let mut random = Random::new(2);
    let mut tally = Tally::default();
    for _ in 0..1_000_000 {
        let way = random.one_of(&Way::BOTH);
        let size = if random.once_in(4) {
            random.between(3, 127)
        } else {
            random.between(3, 22)
        };
        let mut message = [0; 127];
        message[..3].copy_from_slice(&[size as u8, 0, random.one_of(known_types(way))]);
        // Small bytes are more often in a list than large ones.
        let mask = random.one_of(&[0xFF, 0x1F, 0x0F, 0x07]);
        message[3..size].fill_with(|| random.byte() & mask);
        tally.compare(way, &message[..size]);
    }
    println!("random contents after a right header: {tally}");
    tally.expect_refusals([0, 6, 7], 50_000);
}

#[test]
fn random_bytes() {
    let mut random = Random::new(3);
    let mut tally = Tally::default();
    for _ in 0..500_000 {
        let mut message = [0; 140];
        let size = random.below(141);
        message.fill_with(|| random.byte());
        let way = random.one_of(&Way::BOTH);
        tally.compare(way, &message[..size]);
    }
    println!("random bytes: {tally}");
    tally.expect_refusals([1, 4], 1000);
    tally.expect_refusals([2, 3], 100_000);
}
