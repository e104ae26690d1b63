//! Rows of any numbers given to writing: every field is judged on the row's own number. The seeds are fixed, so every run
//! compares the same rows.

use differential::{
    bad_feedback_calls, edges, number, outside, valid_calls, Call, Random, WriteTally, BAD_ROW, OUTPUT, READ_ONLY,
    ROW_CELLS,
};
use yardstick::{Form, Row, Way};

/// Numbers at the edges of fields and lists, and wider than they are.
const NUMBERS: [u64; 15] = [
    0,
    1,
    254,
    255,
    256,
    300,
    510,
    65_535,
    65_536,
    (1 << 32) - 1,
    1 << 32,
    (1 << 48) - 1,
    1 << 48,
    1 << 63,
    u64::MAX,
];

/// Where the values of a row start.
const VALUES: usize = 4;

fn other(way: Way) -> Way {
    match way {
        Way::Down => Way::Up,
        Way::Up => Way::Down,
    }
}

/// Any number, small ones often.
fn any_number(random: &mut Random) -> u64 {
    random.number() >> random.below(64)
}

const fn seven(place: u64) -> u64 {
    7 << 32 | place
}

/// The answer to a wrong count of a 43's list: the size of a list with one entry was wanted.
const NO_LIST: u64 = 6 << 32 | 7;

/// By hand: the answer where a value of a form is 2^63 and all else is right. It is outside every list, wider than every
/// field, and the least signed number of 64 bits.
fn answers_to_wide_values(call: &Call) -> Vec<u64> {
    const WIDE: u64 = BAD_ROW;
    match call.form {
        Form::PropertyCommand | Form::PropertyText => vec![seven(3), seven(4)],
        // Those of properties 11 and 12 have no list.
        Form::PropertyByte if matches!(call.values[0], 11 | 12) => vec![seven(3), seven(4), WIDE],
        Form::PropertyByte | Form::PropertyAddress => vec![seven(3), seven(4), seven(5)],
        Form::PropertyRssi | Form::PropertyVersion | Form::PropertyProtocol => vec![seven(3), seven(4), WIDE],
        Form::HubAction => vec![seven(3)],
        Form::AlertCommand => vec![seven(3), seven(4)],
        Form::AlertUpdate => vec![seven(3), seven(4), seven(5)],
        Form::Detached => vec![WIDE, seven(4)],
        Form::Attached | Form::AttachedVirtual => vec![WIDE, seven(4), WIDE, WIDE, WIDE],
        Form::GenericError => vec![WIDE, seven(4)],
        Form::GoIntoBootMode | Form::LockMemory | Form::LockStatusRequest => vec![],
        // It is only read, so no number of its is looked at.
        Form::LockStatus => vec![23 << 32],
        Form::PortValue => vec![WIDE],
        Form::PortInformationRequest => vec![WIDE, seven(4)],
        Form::ModeInformationRequest | Form::ModeText => vec![WIDE, seven(4), seven(5)],
        Form::InputFormatSetup | Form::InputFormat => vec![WIDE, seven(4), WIDE, seven(9)],
        Form::PortModes => vec![WIDE, seven(4), seven(5), WIDE, WIDE, WIDE],
        Form::PortCombinations => {
            let count = call.values[2];
            // Past the count they are not looked at.
            let entry = |index| if index < count { WIDE } else { 5 + 2 * count };
            let mut answers = vec![WIDE, seven(4), NO_LIST];
            answers.extend((0..8).map(entry));
            answers
        }
        Form::ModeRange => vec![WIDE, seven(4), seven(5), WIDE, WIDE],
        Form::ModeMapping => vec![WIDE, seven(4), seven(5), WIDE],
        Form::ModeBias | Form::ModeCapabilities => vec![WIDE, seven(4), seven(5), seven(6)],
        Form::ValueFormat => vec![WIDE, seven(4), seven(5), seven(6), seven(7), WIDE, WIDE],
        Form::VirtualDisconnect => vec![seven(3), WIDE],
        Form::VirtualConnect => vec![seven(3), WIDE, WIDE],
        // Degrees and the two speeds have lists, positions none.
        Form::StartSpeedForDegrees => [&[WIDE][..], &[4, 5, 6, 10, 11, 12, 13, 14].map(seven)].concat(),
        Form::GotoAbsolutePosition => {
            let listed = [10, 11, 12, 13].map(seven);
            [&[WIDE, seven(4), seven(5), WIDE][..], &listed].concat()
        }
        Form::GotoAbsolutePositions => {
            let listed = [14, 15, 16, 17].map(seven);
            [&[WIDE, seven(4), seven(5), WIDE, WIDE][..], &listed].concat()
        }
        Form::PresetEncoders => vec![WIDE, seven(4), seven(5), WIDE, WIDE],
        Form::OutputFeedback => vec![],
        Form::CombinedSetup => vec![WIDE, seven(4)],
        Form::ModeDatasets => vec![WIDE, seven(4), WIDE],
        Form::PortValueCombined => vec![WIDE, WIDE],
        Form::InputFormatCombined => vec![WIDE, WIDE, WIDE],
    }
}

#[test]
fn one_wide_value() {
    let mut tally = WriteTally::default();
    for call in valid_calls() {
        let answers = answers_to_wide_values(&call);
        assert_eq!(answers.len(), call.values.len(), "{call:?}");
        for (index, expected) in answers.into_iter().enumerate() {
            let mut row = call.row();
            row[VALUES + index] = 1 << 63;
            let answer = tally.compare_row(call.way, &row, &call.open, OUTPUT);
            assert_eq!(answer, expected, "value {index} of {call:?}");
            // The output comes last.
            let expected = if number(expected) == 0 { 8 << 32 } else { expected };
            let answer = tally.compare_row(call.way, &row, &call.open, 2);
            assert_eq!(answer, expected, "value {index} of {call:?} without output");
        }
    }
    // Feedback has no values.
    for (call, expected) in bad_feedback_calls() {
        for output in [OUTPUT, 2] {
            let answer = tally.compare_row(call.way, &call.row(), &call.open, output);
            assert_eq!(answer, expected, "{call:?}");
        }
    }
    println!("one wide value: {tally}");
    tally.expect_forms([7, 255], 2);
}

/// Every cell of every form set to each of the numbers and to random ones, each way, with right and wrong open bytes.
#[test]
fn every_cell() {
    let mut random = Random::new(21);
    let mut tally = WriteTally::default();
    for call in valid_calls() {
        let used = VALUES..VALUES + call.values.len();
        for cell in 0..ROW_CELLS {
            let mut numbers = NUMBERS.to_vec();
            numbers.extend((0..20).map(|_| any_number(&mut random)));
            for content in numbers {
                let mut row = call.row();
                row[cell] = content;
                for way in Way::BOTH {
                    for open in [&call.open[..], b"", b"xy"] {
                        for output in [OUTPUT, 2] {
                            let answer = tally.compare_row(way, &row, open, output);
                            if cell != 0 && !used.contains(&cell) {
                                let right = tally.compare_row(way, &call.row(), open, output);
                                assert_eq!(answer, right, "{content} in cell {cell} of {call:?}");
                            }
                        }
                    }
                }
            }
        }
    }
    println!("every cell: {tally}");
    tally.expect_numbers([0, 5, 6, 7, 8, READ_ONLY, 255], 10_000);
    tally.expect_forms([0, 5, 6, 7, 8, READ_ONLY, 255], 20);
}

/// Two values damaged at once: which of them is judged first.
#[test]
fn every_pair_of_values() {
    let mut tally = WriteTally::default();
    for call in valid_calls() {
        let values = call.values.len();
        for first in 0..values {
            for second in first + 1..values {
                let mut row = call.row();
                for a in NUMBERS {
                    for b in NUMBERS {
                        row[VALUES + first] = a;
                        row[VALUES + second] = b;
                        tally.compare_row(call.way, &row, &call.open, OUTPUT);
                        tally.compare_row(call.way, &row, b"x", 0);
                    }
                }
            }
        }
    }
    println!("every pair of values: {tally}");
    tally.expect_numbers([0, 6, 7, 255], 10_000);
}

/// The other way: 5 comes before all else but a row that is too short or has no form.
#[test]
fn wide_values_the_other_way() {
    let mut random = Random::new(22);
    let mut tally = WriteTally::default();
    for call in valid_calls() {
        // 01, 02 and 03 go both ways.
        if call.form.number() < Form::Detached.number() {
            continue;
        }
        for content in NUMBERS {
            for wide in 0..=call.values.len() {
                let mut row = call.row();
                row[VALUES..][..wide].fill(content);
                row[VALUES + wide..].fill_with(|| any_number(&mut random));
                for open in [&call.open[..], &[b'x'; 200]] {
                    for output in [0, OUTPUT] {
                        let answer = tally.compare_row(other(call.way), &row, open, output);
                        assert_eq!(answer, 5 << 32 | 2, "{row:X?}");
                        let answer = tally.compare_row(other(call.way), &row[..ROW_CELLS - 1], open, output);
                        assert_eq!(answer, BAD_ROW, "{row:X?}");
                    }
                }
            }
        }
    }
    println!("wide values the other way: {tally}");
    tally.expect_forms([5], 10);
}

/// Every count of a 43, with wild entries past it and, now and then, within it.
#[test]
fn entries_of_a_list() {
    let mut random = Random::new(23);
    let mut tally = WriteTally::default();
    for count in (0..=9).chain([255, 256, 257, 264, 300, 1 << 32 | 1, u64::MAX]) {
        for turn in 0..400 {
            let mut row: Row = [0; ROW_CELLS];
            row.fill_with(|| random.number() | 1 << random.between(16, 63));
            row[0] = Form::PortCombinations.number().into();
            row[VALUES..][..3].copy_from_slice(&[0x32, 2, count]);
            let within = VALUES + 3..VALUES + 3 + count.min(8) as usize;
            for entry in &mut row[within.clone()] {
                *entry &= 0xFFFF;
            }
            let mut expected = if (1..=8).contains(&count) {
                5 + 2 * count
            } else {
                NO_LIST
            };
            if turn % 2 == 1 && !within.is_empty() {
                let wide = random.below(within.len());
                row[within.start + wide] |= 1 << random.between(16, 63);
                expected = if number(expected) == 0 { BAD_ROW } else { expected };
            }
            let answer = tally.compare_row(Way::Up, &row, b"", OUTPUT);
            assert_eq!(answer, expected, "{row:X?}");
        }
    }
    println!("entries of a list: {tally}");
    tally.expect_numbers([0, 6, 255], 1000);
}

/// A random row, open bytes and length of the output. Most are those of a message with some cells changed.
fn any_row(random: &mut Random, valid: &[Call]) -> (Way, Vec<u64>, Vec<u8>, usize) {
    let call = &valid[random.below(valid.len())];
    let kinds = call.form.kinds();
    let mut row = call.row().to_vec();
    row[1..VALUES].fill_with(|| any_number(random));
    for _ in 0..random.one_of(&[0, 1, 1, 1, 2, 2, 3, 8]) {
        let cell = random.between(VALUES, VALUES + kinds.len());
        row[cell] = match (random.below(4), kinds.get(cell - VALUES)) {
            (0, Some(&kind)) => random.one_of(&edges(kind)),
            (1, Some(&kind)) if !outside(kind).is_empty() => random.one_of(&outside(kind)),
            (2, _) => random.one_of(&NUMBERS),
            _ => any_number(random),
        };
    }
    match random.below(64) {
        0 => row[0] = any_number(random),
        1 => row.truncate(random.below(ROW_CELLS)),
        2 => row.push(random.number()),
        _ => {}
    }
    let way = if random.once_in(16) { other(call.way) } else { call.way };
    let mut open = call.open.clone();
    if random.once_in(12) {
        let length = random.one_of(&[0, 1, 5, 12, 15, 124, 255, 256]);
        open.resize_with(length, || random.byte());
    }
    let output = match random.below(8) {
        0 => random.below(OUTPUT),
        1 => random.below(16),
        _ => OUTPUT,
    };
    (way, row, open, output)
}

#[test]
fn random_rows() {
    let mut random = Random::new(24);
    let valid = valid_calls();
    let mut tally = WriteTally::default();
    for _ in 0..1_500_000 {
        let (way, row, open, output) = any_row(&mut random, &valid);
        tally.compare_row(way, &row, &open, output);
    }
    println!("random rows: {tally}");
    tally.expect_numbers([0], 200_000);
    tally.expect_numbers([5, 6, 7, 8, READ_ONLY, 255], 30_000);
    tally.expect_forms([0, 5, 6, 7, 8, READ_ONLY, 255], 100);
}
