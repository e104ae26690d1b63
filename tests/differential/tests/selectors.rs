//! Every pair of selector values, and every type.

use std::collections::{BTreeSet, HashSet};

use differential::{known_types, Tally};
use yardstick::examples::FORMS;
use yardstick::Way;

/// The sizes around the valid ones of a type.
fn sizes(message_type: u8) -> &'static [usize] {
    match message_type {
        0x01 => &[3, 4, 5, 6, 7, 8, 9, 10, 11, 12, 18, 19, 20, 126, 127],
        0x02 => &[3, 4, 5],
        0x03 => &[3, 4, 5, 6, 7],
        0x04 => &[3, 4, 5, 6, 8, 9, 10, 14, 15, 16],
        0x05 => &[4, 5, 6],
        0x10 => &[11, 12, 13],
        0x11 => &[10, 11, 12],
        0x12 => &[3, 5],
        0x13 => &[3, 4, 5],
        0x21 => &[4, 5, 6],
        0x22 => &[5, 6, 7],
        0x41 | 0x47 => &[9, 10, 11],
        0x42 => &[3, 4, 5, 6, 7, 8, 21, 22, 23],
        0x43 => &[4, 5, 6, 7, 8, 9, 10, 11, 12, 13, 15, 17, 19, 20, 21, 22, 23],
        0x44 => &[5, 6, 7, 8, 9, 10, 11, 12, 13, 14, 15, 16, 17, 18],
        0x45 => &[3, 4, 5, 6, 127],
        0x46 => &[3, 5, 6, 7, 8, 127],
        0x48 => &[3, 6, 7, 8],
        0x61 => &[3, 4, 5, 6, 7],
        0x81 => &[3, 4, 5, 6, 7, 13, 14, 15, 16, 17, 18, 19],
        0x82 => &[3, 4, 5, 6, 7, 8, 9, 126, 127],
        _ => unreachable!("a known type"),
    }
}

/// Messages of a type at full length: of zeros, of ones, and as the valid messages of each of its forms. One will do
/// for a type that doesn't go this way.
fn contents(way: Way, message_type: u8) -> Vec<[u8; 127]> {
    let mut contents = vec![[0; 127]];
    if known_types(way).contains(&message_type) {
        contents.push([1; 127]);
        let mut forms = HashSet::new();
        for (message, answer) in FORMS.iter().map(|example| (example.bytes(), example.answer())) {
            let form = answer.expect("the examples of forms are accepted").form;
            if message[2] == message_type && forms.insert(form.number()) {
                let mut content = [0; 127];
                content[..message.len()].copy_from_slice(&message);
                contents.push(content);
            }
        }
        assert!(!forms.is_empty(), "every type has an example");
    }
    for content in &mut contents {
        content[1] = 0;
        content[2] = message_type;
    }
    contents
}

/// All pairs of values at `place` and the next, for all known types, each way.
fn every_pair_at(place: usize) -> Tally {
    let types: BTreeSet<u8> = Way::BOTH.into_iter().flat_map(known_types).copied().collect();
    assert_eq!(types.len(), 22, "the known types");
    let mut tally = Tally::default();
    for way in Way::BOTH {
        for &message_type in &types {
            for mut message in contents(way, message_type) {
                for &size in sizes(message_type) {
                    message[0] = size as u8;
                    // A short message holds the first of the pair only, or neither.
                    let pairs = match size.saturating_sub(place) {
                        0 => 0..=0,
                        1 => 0..=0x00FF,
                        _ => 0..=0xFFFF,
                    };
                    for pair in pairs {
                        message[place..place + 2].copy_from_slice(&u16::to_le_bytes(pair));
                        tally.compare(way, &message[..size]);
                    }
                }
            }
        }
    }
    tally
}

#[test]
fn every_pair_at_places_3_and_4() {
    let tally = every_pair_at(3);
    println!("every pair at places 3 and 4: {tally}");
    tally.expect_refusals([0, 5, 6, 7], 500_000);
    tally.expect_forms(1);
    tally.expect_wrong_sizes(1);
}

#[test]
fn every_pair_at_places_4_and_5() {
    let tally = every_pair_at(4);
    println!("every pair at places 4 and 5: {tally}");
    tally.expect_refusals([0, 5, 6, 7], 500_000);
    tally.expect_forms(1);
    tally.expect_wrong_sizes(1);
}

#[test]
fn every_type_at_every_size() {
    let mut tally = Tally::default();
    for message_type in 0..=255 {
        for size in 3..=127 {
            for byte in [0, 1, 2, 6, 0xFF] {
                let mut message = [byte; 127];
                message[..3].copy_from_slice(&[size, 0, message_type]);
                tally.compare_both_ways(&message[..usize::from(size)]);
            }
        }
    }
    println!("every type at every size: {tally}");
    tally.expect_refusals([5, 6, 7], 1000);
    tally.expect_refusals([0], 100);
}
