//! How many open bytes and how much output a writer is lent.

use differential::{valid_calls, Call, WriteTally, OUTPUT, READ_ONLY};
use yardstick::examples::WRITING;
use yardstick::{Form, Way};

/// Open bytes of a length, neighbours different from each other. The second of each two is feedback.
fn open(length: usize) -> Vec<u8> {
    let byte = |place| (place * 89 + 7) as u8;
    let is_feedback = |place: usize| place % 2 == 1;
    (0..length)
        .map(|place| byte(place) & if is_feedback(place) { 0x1F } else { 0xFF })
        .collect()
}

/// Every number of open bytes up to 300, and some beyond that equal small ones in their low bits.
#[test]
fn every_length_of_open_bytes() {
    let mut tally = WriteTally::default();
    let beyond = [
        512,
        513,
        1024 + 5,
        32_768 + 1,
        65_536,
        65_536 + 1,
        65_536 + 5,
        131_072 + 3,
    ];
    for valid in valid_calls() {
        for length in (0..=300).chain(beyond) {
            for way in Way::BOTH {
                for output in [OUTPUT, 300, 0] {
                    tally.compare(&Call {
                        way,
                        open: open(length),
                        output,
                        ..valid.clone()
                    });
                }
            }
        }
    }
    println!("every length of open bytes: {tally}");
    tally.expect_forms([0, 5, 6], 2);
    tally.expect_forms([8], 1);
    // Every length, with three outputs.
    tally.expect_forms([READ_ONLY], (301 + beyond.len() as u64) * 3);
    // Texts of 1 to 14 and of 1 to 122 bytes, names of 1 to 11, symbols of 1 to 5, values of 1 to 123, combined ones of
    // 1 to 121.
    tally.expect_numbers([0], 2 * (14 + 122 + 11 + 5 + 123 + 121));
    // Three examples and the longest one, with two outputs that have room.
    assert_eq!(tally.seen_for(Form::PortValueCombined, 0), 4 * 121 * 2);
    // Three examples. None of the first sixteen bytes is there twice.
    assert_eq!(tally.seen_for(Form::ModeDatasets, 0), 3 * 16 * 2);
    // Three examples and the longest one, with 1 to 62 pairs and two outputs that have room.
    assert_eq!(tally.seen_for(Form::OutputFeedback, 0), 4 * 62 * 2);
}

/// Every length of output from none to three bytes more than the message has, for accepted and for refused messages.
/// The bytes past the message, and all bytes after a refusal, have to be what they were.
#[test]
fn every_length_of_output() {
    let mut tally = WriteTally::default();
    for valid in valid_calls() {
        for way in Way::BOTH {
            for open in [valid.open.clone(), [&valid.open[..], b"x"].concat(), open(124)] {
                // The most that a message has beside its open bytes, and three bytes more.
                for output in 0..=open.len() + 21 + 3 {
                    tally.compare(&Call {
                        way,
                        open: open.clone(),
                        output,
                        ..valid.clone()
                    });
                }
            }
        }
    }
    for example in WRITING {
        for output in 0..=OUTPUT {
            tally.compare(&Call {
                way: example.way,
                form: example.form,
                values: example.values.to_vec(),
                open: example.open.to_vec(),
                output,
            });
        }
    }
    println!("every length of output: {tally}");
    tally.expect_forms([0, 5, 6, 8], 3);
    tally.expect_forms([7], 1);
    // Outputs of 0 to 24 bytes, one more with an open byte, and 124 more with as many.
    tally.expect_forms([READ_ONLY], 25 + 26 + 149);
    tally.expect_numbers([0, 5, 6, 7, 8], 1000);
}

/// Every count of a 43, with every length of output.
#[test]
fn every_count_of_combinations() {
    let mut tally = WriteTally::default();
    for count in 0..=255 {
        for output in 0..=24 {
            for open in [0, 1, 2] {
                let mut values = vec![0x32, 2, count];
                values.extend(1..=8);
                tally.compare(&Call {
                    way: Way::Up,
                    form: Form::PortCombinations,
                    values,
                    open: vec![0; open],
                    output,
                });
            }
        }
    }
    println!("every count of combinations: {tally}");
    // A count of n is accepted with outputs of 5 + 2n to 24 bytes, else is 8.
    let accepted: u64 = (1..=8).map(|count| 24 - (5 + 2 * count) + 1).sum();
    assert_eq!(tally.seen(0), accepted);
    assert_eq!(tally.seen(8), 8 * 25 - accepted);
    assert_eq!(tally.seen(6), tally.calls() - 8 * 25);
}
