//! Values by their formats: every number and kind of datasets, every size, every dataset, every exponent of a float.

use differential::{TableTally, Trio};
use yardstick::traffic::compose;
use yardstick::{Form, Way};

const PORT: u64 = 0x3C;
const MODE: u64 = 9;

/// The number of the experiment that asked for the values.
const EXPERIMENT: u16 = 0x0102;

/// A port in its mode, as asked, with a format.
fn with_format(tally: &mut TableTally, datasets: u64, kind: u64) -> Trio {
    let mut trio = Trio::default();
    let setup = [PORT, MODE, 1, 1];
    let format = [PORT, MODE, 0x80, datasets, kind, 5, 1];
    for (way, form, values) in [
        (Way::Up, Form::Attached, &[PORT, 1, 0x26, 0, 0][..]),
        (Way::Up, Form::ValueFormat, &format),
        (Way::Down, Form::InputFormatSetup, &setup),
        (Way::Up, Form::InputFormat, &setup),
    ] {
        // Other messages come with another number.
        let experiment = if form == Form::InputFormatSetup {
            EXPERIMENT
        } else {
            0x0304
        };
        trio.offer(tally, way, &compose(way, form, values, &[]), experiment);
    }
    trio
}

fn value(bytes: &[u8]) -> Vec<u8> {
    compose(Way::Up, Form::PortValue, &[PORT], bytes)
}

/// Every format with values of every size. All datasets of the right ones are handed out, and some that aren't there.
#[test]
fn every_format_and_size() {
    let mut tally = TableTally::default();
    // No two bytes are equal, and a float of four in turn is finite.
    let bytes: Vec<u8> = (1..=123).collect();
    for kind in 0..4 {
        let width = [1, 2, 4, 4][kind];
        for datasets in 1..=16 {
            let mut trio = with_format(&mut tally, datasets as u64, kind as u64);
            for size in 1..=bytes.len() {
                let message = value(&bytes[..size]);
                trio.offer(&mut tally, Way::Up, &message, size as u16);
                trio.hand_out(&mut tally, Way::Up, &message, 0);
                trio.hand_out_all(&mut tally, Way::Up, &message);
                if size != datasets * width {
                    continue;
                }
                let wide = [255, 256, 257, 1 << 16, 1 << 32, (1 << 32) + 1, 1 << 63, usize::MAX];
                for number in (0..=17).chain(wide) {
                    trio.hand_out(&mut tally, Way::Up, &message, number);
                }
            }
        }
    }
    println!("every format and size: {tally}");
    // Each format has one right size, and the first of its datasets is asked for twice.
    tally.expect_offered([16], 64 * 122);
    tally.expect_handed_out([0], 4 * (1..=16).sum::<u64>() + 64);
    tally.expect_handed_out([17], 64 * 10);
    tally.expect_whole([16], 64 * 122);
    tally.expect_whole([0], 64);
    tally.expect_every_number_of_datasets(4);
}

/// Floats of every sign and exponent as one of two datasets: only the one asked for is judged, or both if the value is
/// asked for as a whole.
#[test]
fn every_exponent() {
    const FRACTIONS: [u32; 8] = [0, 1, 2, 0x00_8000, 0x3F_FFFF, 0x40_0000, 0x40_0001, 0x7F_FFFF];
    let mut tally = TableTally::default();
    let mut trio = with_format(&mut tally, 2, 3);
    for sign_and_exponent in 0..512 {
        for fraction in FRACTIONS {
            let float = (sign_and_exponent << 23 | fraction).to_le_bytes();
            for other in [1.0_f32, f32::NAN].map(f32::to_le_bytes) {
                let message = value(&[float, other].concat());
                trio.offer(&mut tally, Way::Up, &message, fraction as u16);
                for number in 0..3 {
                    trio.hand_out(&mut tally, Way::Up, &message, number);
                }
                trio.hand_out_all(&mut tally, Way::Up, &message);
            }
        }
    }
    println!("every exponent: {tally}");
    let values = 512 * 8 * 2;
    tally.expect_offered([0], values);
    // Half of the others and two of 512 exponents aren't finite.
    tally.expect_handed_out([0], values / 2 + values * 510 / 512);
    tally.expect_handed_out([18], values / 2 + values * 2 / 512);
    tally.expect_handed_out([17], values);
    // As a whole the value is refused if one of the two isn't finite.
    tally.expect_whole([0], values / 2 * 510 / 512);
    tally.expect_whole([18], values - values / 2 * 510 / 512);
}

/// Whole numbers with every value of a byte at every place.
#[test]
fn every_byte() {
    let mut tally = TableTally::default();
    for (kind, width) in [(0, 1), (1, 2), (2, 4)] {
        let mut trio = with_format(&mut tally, 3, kind);
        for place in 0..3 * width {
            for byte in 0..=255 {
                let mut bytes = [0x7F, 0x80, 0xFF, 0x01].repeat(3);
                bytes.truncate(3 * width);
                bytes[place] = byte;
                let message = value(&bytes);
                for number in 0..3 {
                    trio.hand_out(&mut tally, Way::Up, &message, number);
                }
                trio.hand_out_all(&mut tally, Way::Up, &message);
            }
        }
    }
    println!("every byte: {tally}");
    tally.expect_handed_out([0], 3 * 256 * (3 + 6 + 12));
    tally.expect_signs(4000);
    tally.expect_whole([0], 256 * (3 + 6 + 12));
}

/// Every experiment number, carried by a value in state 2 and by none in states 1 and 3.
#[test]
fn every_experiment() {
    let mut tally = TableTally::default();
    let mut trio = with_format(&mut tally, 1, 0);
    let setup = |way, form, delta| compose(way, form, &[PORT, MODE, delta, 1], &[]);
    let ask = setup(Way::Down, Form::InputFormatSetup, 1);
    let answer = setup(Way::Up, Form::InputFormat, 1);
    let otherwise = setup(Way::Up, Form::InputFormat, 2);
    let message = value(&[7]);
    for experiment in 0..=u16::MAX {
        for (way, step, number) in [
            (Way::Down, &ask, experiment),
            (Way::Up, &otherwise, !experiment),
            (Way::Up, &answer, !experiment),
        ] {
            trio.offer(&mut tally, way, step, number);
            trio.hand_out(&mut tally, Way::Up, &message, 0);
        }
        if experiment % 64 == 0 {
            trio.compare_port(&mut tally, PORT as u8);
        }
        let dataset = trio.table().hand_out(Way::Up, &message, 0);
        assert_eq!(dataset.map(|it| it.experiment), Ok(experiment));
        // The list without a table grows with every message.
        if experiment % 16 == 15 {
            trio = with_format(&mut tally, 1, 0);
        }
    }
    println!("every experiment: {tally}");
    tally.expect_handed_out([0], 3 * 65536);
}
