//! Valid messages of every form, in every size and with every single byte changed.

use differential::{Random, Tally};
use yardstick::examples::FORMS;

/// The longest message, and one byte more.
const SIZES: usize = 128;

/// Valid messages: the examples of every form, the longest list among them, and the longest texts, values and feedback.
fn valid_messages() -> Vec<Vec<u8>> {
    let mut messages: Vec<Vec<u8>> = FORMS.iter().map(|example| example.bytes()).collect();
    for start in [[0x7F, 0, 0x01, 8, 6], [0x7F, 0, 0x01, 9, 6], [0x7F, 0, 0x45, 0, 0]] {
        let mut message = start.to_vec();
        message.resize(0x7F, 0x41);
        messages.push(message);
    }
    let mut combined = vec![0x7F, 0, 0x46, 0, 0xFF, 0xFF];
    combined.resize(0x7F, 0x41);
    messages.push(combined);
    let mut feedback = vec![0x7F, 0, 0x82];
    feedback.resize(0x7F, 0x1F);
    messages.push(feedback);
    messages
}

/// The message at full length, with a few kinds of filling after its own bytes.
fn extended(message: &[u8]) -> Vec<[u8; SIZES]> {
    let mut random = Random::new(message.len() as u64);
    let fill = |filling: &mut dyn FnMut(usize) -> u8| {
        let mut long = [0; SIZES];
        for (place, byte) in long.iter_mut().enumerate() {
            *byte = message.get(place).copied().unwrap_or_else(|| filling(place));
        }
        long
    };
    vec![
        fill(&mut |_| 0x00),
        fill(&mut |_| 0x01),
        fill(&mut |_| 0xFF),
        fill(&mut |place| message[place % message.len()]),
        fill(&mut |_| random.byte()),
    ]
}

#[test]
fn every_size() {
    let mut tally = Tally::default();
    for message in valid_messages() {
        for long in extended(&message) {
            for size in 0..=SIZES {
                // Byte 0 as it was. The bytes after a cut stay in memory, and mustn't be read.
                tally.compare_both_ways(&long[..size]);
                // Byte 0 as the new size.
                let mut sized = long;
                sized[0] = size as u8;
                tally.compare_both_ways(&sized[..size]);
            }
        }
    }
    println!("every size: {tally}");
    tally.expect_refusals([0, 1, 2, 3, 5, 6, 7], 500);
    tally.expect_forms(10);
    tally.expect_wrong_sizes(20);
}

#[test]
fn every_value_of_every_byte() {
    let mut tally = Tally::default();
    for mut message in valid_messages() {
        for place in 0..message.len() {
            let byte = message[place];
            for value in 0..=255 {
                message[place] = value;
                tally.compare_both_ways(&message);
            }
            message[place] = byte;
        }
    }
    println!("every value of every byte: {tally}");
    tally.expect_refusals([0, 2, 3, 4, 5, 6, 7], 1000);
    // The shortest form has three bytes, and each keeps its own value once.
    tally.expect_forms(3);
}

/// A wrong byte together with a wrong size: which of the two is judged first.
#[test]
fn every_value_of_every_byte_at_sizes_nearby() {
    let mut tally = Tally::default();
    for message in valid_messages() {
        for long in extended(&message) {
            let nearby = message.len().saturating_sub(3)..=message.len() + 3;
            for size in nearby.filter(|size| (3..=127).contains(size)) {
                let mut sized = long;
                sized[0] = size as u8;
                for place in 1..size.min(24) {
                    let byte = sized[place];
                    for value in 0..=255 {
                        sized[place] = value;
                        tally.compare_both_ways(&sized[..size]);
                    }
                    sized[place] = byte;
                }
            }
        }
    }
    println!("every value of every byte at sizes nearby: {tally}");
    tally.expect_refusals([0, 4, 5, 6, 7], 1_000_000);
    tally.expect_forms(50);
    tally.expect_wrong_sizes(1000);
}

/// Two wrong bytes: which of them is judged first.
#[test]
fn every_pair_of_changed_bytes() {
    const VALUES: [u8; 10] = [0x00, 0x01, 0x02, 0x05, 0x06, 0x09, 0x10, 0x65, 0x80, 0xFF];
    let mut tally = Tally::default();
    for message in valid_messages() {
        let places = message.len().min(24);
        for first in 0..places {
            for second in first + 1..places {
                let mut changed = message.clone();
                for first_value in VALUES {
                    for second_value in VALUES {
                        changed[first] = first_value;
                        changed[second] = second_value;
                        tally.compare_both_ways(&changed);
                    }
                }
            }
        }
    }
    println!("every pair of changed bytes: {tally}");
    tally.expect_refusals([0, 2, 3, 4, 5, 6, 7], 10_000);
}
