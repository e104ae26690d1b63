//! Combined mode, 42 down, 46 and 48 up: reading, writing, ports and logs. All answers are written out by hand, and both
//! programs are held to them.

use differential::by_hand::{expect_read, expect_written, refusal, Given};
use differential::castanetash::{port_cell, MOST_ENTRIES};
use differential::{
    castanetash_dataset, castanetash_offer, castanetash_port, castanetash_read, castanetash_read_block,
    castanetash_values, castanetash_write, dataset_cells, number, port_cells, printed, refused, values_cells, way_byte,
    Lent, LentTable, Random, DATASET_CELLS, PORT_CELLS, ROW_CELLS,
};
use yardstick::examples::bytes;
use yardstick::traffic::compose;
use yardstick::{log_record, read_log, Form, MessageList, Row, Table, Way, LINE_ROOM, TABLE_CELLS};

const OTHER_WAY: u64 = refusal(5, 2);
const NO_OUTPUT: u64 = refusal(8, 0);
const ABSENT: u64 = refusal(10, 0);
const NO_MODE: u64 = refusal(14, 0);
const NO_FORMAT: u64 = refusal(15, 0);
const VALUE_SIZE: u64 = refusal(16, 0);
const NO_DATASET: u64 = refusal(17, 0);
const NOT_FINITE: u64 = refusal(18, 0);
const NOT_COMBINED: u64 = refusal(20, 0);
const POINTERS: u64 = refusal(21, 0);
const WIDE: u64 = refusal(255, 0);

const fn size(wanted: usize) -> u64 {
    refusal(6, wanted)
}

const fn field(place: usize) -> u64 {
    refusal(7, place)
}

/// The forms by their numbers.
const COMBINED_SETUP: u64 = 39;
const MODE_DATASETS: u64 = 40;
const PORT_VALUE_COMBINED: u64 = 41;
const INPUT_FORMAT_COMBINED: u64 = 42;

/// Where the values of a row start, the place of the sub command, and that of the first entry or value byte.
const VALUES: usize = 4;
const SUB: usize = 4;
const OPEN: usize = 6;

/// More bytes than a message has.
const TOO_LONG: usize = 140;

/// A message of each form, and the longest list.
const SETUP: &[u8] = b"\x05\x00\x42\x09\x03";
const LIST: &[u8] = b"\x08\x00\x42\x09\x01\x05\x10\x21";
const LONGEST_LIST: &[u8] = b"\x16\x00\x42\x09\x01\xFF\x0F\x1E\x2D\x3C\x4B\x5A\x69\x78\x87\x96\xA5\xB4\xC3\xD2\xE1\xF0";
const VALUE: &[u8] = b"\x09\x00\x46\x09\x03\x01\x80\xFE\xFF";
const ANSWER: &[u8] = b"\x07\x00\x48\x09\x80\x03\x01";
const SAMPLES: [(Way, &[u8]); 5] = [
    (Way::Down, SETUP),
    (Way::Down, LIST),
    (Way::Down, LONGEST_LIST),
    (Way::Up, VALUE),
    (Way::Up, ANSWER),
];

/// The first place of an entry that stood in the list before. `entries` are those of a list that starts at place 6.
fn first_repeat(entries: &[u8]) -> Option<usize> {
    for later in 0..entries.len() {
        for earlier in 0..later {
            if entries[earlier] == entries[later] {
                return Some(OPEN + later);
            }
        }
    }
    None
}

/// What reading gives for a message of type 42, 46 or 48, by hand.
fn by_hand(way: Way, message: &[u8]) -> Result<Row, u64> {
    match message {
        [] => return Err(refusal(1, 0)),
        [0x80..=0xFF, ..] => return Err(refusal(2, 0)),
        [length, ..] if usize::from(*length) != message.len() || *length < 3 => return Err(refusal(3, 0)),
        [_, 1..=0xFF, ..] => return Err(refusal(4, 1)),
        _ => {}
    }
    let (form, open, values): (_, _, &[u64]) = match (way, &message[2..]) {
        (Way::Down, [0x42]) | (Way::Down, [0x42, _]) => return Err(size(5)),
        (Way::Down, [0x42, port, sub @ (2..=4 | 6)]) => (COMBINED_SETUP, 0, &[(*port).into(), (*sub).into()]),
        (Way::Down, [0x42, _, 2..=4 | 6, ..]) => return Err(size(5)),
        (Way::Down, [0x42, port, 1, index, entries @ ..]) if (1..=16).contains(&entries.len()) => {
            if let Some(place) = first_repeat(entries) {
                return Err(field(place));
            }
            (MODE_DATASETS, entries.len(), &[(*port).into(), 1, (*index).into()])
        }
        (Way::Down, [0x42, _, 1, ..]) => return Err(size(7)),
        (Way::Down, [0x42, ..]) => return Err(field(SUB)),
        (Way::Up, [0x46, port, low, high, values @ ..]) if !values.is_empty() => {
            let pointers = u64::from(*low) + 256 * u64::from(*high);
            (PORT_VALUE_COMBINED, values.len(), &[(*port).into(), pointers])
        }
        (Way::Up, [0x48, port, control, low, high]) => {
            let pointers = u64::from(*low) + 256 * u64::from(*high);
            (INPUT_FORMAT_COMBINED, 0, &[(*port).into(), (*control).into(), pointers])
        }
        (Way::Up, [0x46 | 0x48, ..]) => return Err(size(7)),
        (_, [0x42 | 0x46 | 0x48, ..]) => return Err(OTHER_WAY),
        (_, other) => panic!("{other:02X?} is no message of this test"),
    };
    let mut row = [0; ROW_CELLS];
    row[0] = form;
    if open > 0 {
        row[1..3].copy_from_slice(&[OPEN as u64, open as u64]);
    }
    row[3] = values.len() as u64;
    row[VALUES..][..values.len()].copy_from_slice(values);
    Ok(row)
}

/// What writing a row of one of the four forms gives, by hand.
fn written_by_hand(way: Way, row: &Row, open: &[u8], output: usize) -> Result<Vec<u8>, u64> {
    let &[form, _, _, _, first, second, third, ..] = row;
    let own = if form <= MODE_DATASETS { Way::Down } else { Way::Up };
    if way != own {
        return Err(OTHER_WAY);
    }
    let (message_type, fits, fewest, most) = match form {
        COMBINED_SETUP => (0x42, [2, 3, 4, 6].contains(&second), 0, 0),
        MODE_DATASETS => (0x42, second == 1, 1, 16),
        PORT_VALUE_COMBINED => (0x46, true, 1, 121),
        _ => (0x48, true, 0, 0),
    };
    if !fits {
        return Err(field(SUB));
    }
    // The fields are two bytes, three or four.
    let fields = if form == COMBINED_SETUP {
        2
    } else if form == INPUT_FORMAT_COMBINED {
        4
    } else {
        3
    };
    if open.len() < fewest || open.len() > most {
        return Err(size(3 + fields + fewest));
    }
    if let (MODE_DATASETS, Some(place)) = (form, first_repeat(open)) {
        return Err(field(place));
    }
    let widest = match form {
        COMBINED_SETUP => [255, 255, u64::MAX],
        MODE_DATASETS => [255, 255, 255],
        PORT_VALUE_COMBINED => [255, 65_535, u64::MAX],
        _ => [255, 255, 65_535],
    };
    if first > widest[0] || second > widest[1] || third > widest[2] {
        return Err(WIDE);
    }
    let mut message = vec![(3 + fields + open.len()) as u8, 0, message_type, first as u8];
    match form {
        COMBINED_SETUP => message.push(second as u8),
        MODE_DATASETS => message.extend([second as u8, third as u8]),
        PORT_VALUE_COMBINED => message.extend((second as u16).to_le_bytes()),
        _ => {
            message.push(second as u8);
            message.extend((third as u16).to_le_bytes());
        }
    }
    message.extend(open);
    if output < message.len() {
        return Err(NO_OUTPUT);
    }
    Ok(message)
}

/// Writes a row by both programs, and expects what is written by hand.
#[track_caller]
fn expect_written_by_hand(given: &mut Given, way: Way, row: &Row, open: &[u8], output: usize) {
    let expected = written_by_hand(way, row, open, output);
    let expected = expected
        .as_ref()
        .map(|message| &message[..])
        .map_err(|&refusal| refusal);
    expect_written(given, way, row, open, output, expected);
}

/// The row of a message, with anything in the cells that writing has no use for, and its open bytes.
fn row_and_open(way: Way, message: &[u8]) -> (Row, &[u8]) {
    let mut row = by_hand(way, message).expect("an accepted message");
    let open = &message[row[1] as usize..][..row[2] as usize];
    let used = VALUES + row[3] as usize;
    row[1..VALUES].fill(u64::MAX);
    row[used..].fill(0xA5A5_0000_0000_5A00);
    (row, open)
}

/// The rows of the samples by hand, so that the definitions above are held to something too.
#[test]
fn rows_of_the_samples() {
    let rows: [&[u64]; 5] = [
        &[39, 0, 0, 2, 9, 3],
        &[40, 6, 2, 3, 9, 1, 5],
        &[40, 6, 16, 3, 9, 1, 255],
        &[41, 6, 3, 2, 9, 0x0103],
        &[42, 0, 0, 3, 9, 0x80, 0x0103],
    ];
    let mut given = Given::default();
    for ((way, message), start) in SAMPLES.into_iter().zip(rows) {
        let mut row = [0; ROW_CELLS];
        row[..start.len()].copy_from_slice(start);
        expect_read(&mut given, way, message, Ok(row));
        let (other_row, open) = row_and_open(way, message);
        expect_written(&mut given, way, &row, open, TOO_LONG, Ok(message));
        expect_written(&mut given, way, &other_row, open, message.len(), Ok(message));
    }
    given.expect("rows of the samples", &[0]);
}

/// The examples of the request and its readings.
#[test]
fn examples() {
    let mut given = Given::default();
    for (way, message, expected) in [
        (Way::Down, "0A 00 42 00 01 00 10 21 21 10", field(8)),
        (Way::Down, "04 00 42 00", size(5)),
        (Way::Up, "03 00 46", size(7)),
        (Way::Down, "05 00 42 00 00", field(4)),
        (Way::Down, "05 00 42 00 05", field(4)),
        (Way::Down, "05 00 42 00 07", field(4)),
        (Way::Down, "06 00 42 00 04 00", size(5)),
        (Way::Down, "06 00 42 00 01 00", size(7)),
        (Way::Up, "06 00 46 00 01 00", size(7)),
        (Way::Up, "06 00 48 00 00 01", size(7)),
        (Way::Up, "08 00 48 00 00 01 00 00", size(7)),
        (Way::Up, "05 00 42 00 02", OTHER_WAY),
        (Way::Down, "07 00 46 00 01 00 00", OTHER_WAY),
        (Way::Down, "07 00 48 00 00 01 00", OTHER_WAY),
    ] {
        expect_read(&mut given, way, &bytes(message), Err(expected));
        assert_eq!(by_hand(way, &bytes(message)), Err(expected), "{message}");
    }
    given.expect("examples", &[5, 6, 7]);
}

/// Every sample in every size from 0 to 140, each way, with byte 0 as it was and as the size says. Most fillings repeat
/// an entry of a list.
#[test]
fn every_size() {
    let mut given = Given::default();
    for (own, sample) in SAMPLES {
        for size in 0..=TOO_LONG {
            for filling in [Some(0x00), Some(0x21), Some(0xFF), None] {
                let mut message = sample.to_vec();
                message.truncate(size);
                // Without a filling no byte is one of the sample's entries or there twice.
                message.extend((message.len()..size).map(|place| filling.unwrap_or(0x40 | place as u8)));
                for way in Way::BOTH {
                    expect_read(&mut given, way, &message, by_hand(way, &message));
                }
                if let Some(length) = message.first_mut() {
                    *length = size as u8;
                }
                // Once more without the definitions above.
                let expected = match (size, &sample[2..]) {
                    (0, _) => Some(refusal(1, 0)),
                    (1 | 2, _) => Some(refusal(3, 0)),
                    (128.., _) => Some(refusal(2, 0)),
                    (3 | 4, [0x42, ..]) => Some(refusal(6, 5)),
                    (_, [0x42, _, 3, ..]) if size != 5 => Some(refusal(6, 5)),
                    (5 | 6 | 23.., [0x42, _, 1, ..]) => Some(refusal(6, 7)),
                    (9.., [0x42, _, 1, 5, ..]) if filling == Some(0x21) => Some(refusal(7, 8)),
                    (10.., [0x42, _, 1, 5, ..]) if filling.is_some() => Some(refusal(7, 9)),
                    (3..=6, [0x46, ..]) => Some(refusal(6, 7)),
                    (_, [0x48, ..]) if size != 7 => Some(refusal(6, 7)),
                    _ => None,
                };
                assert_eq!(by_hand(own, &message).err(), expected, "{message:02X?}");
                for way in Way::BOTH {
                    expect_read(&mut given, way, &message, by_hand(way, &message));
                }
            }
        }
    }
    given.expect("every size", &[0, 1, 2, 3, 5, 6, 7]);
    assert_eq!(given.calls(), 5 * 141 * 4 * 2 * 2);
}

/// Every value of every byte after the header, with how many of 256 are accepted, and what the others are.
#[test]
fn every_value_of_every_byte() {
    let mut given = Given::default();
    for (way, sample) in SAMPLES {
        for place in 3..sample.len() {
            let mut accepted = 0;
            for value in 0..=255 {
                let mut message = sample.to_vec();
                message[place] = value;
                let expected = by_hand(way, &message);
                accepted += u64::from(expected.is_ok());
                match (sample.len(), place, expected) {
                    (_, _, Ok(row)) => assert_eq!(row[0], by_hand(way, sample).expect("a sample")[0]),
                    // Sub command 1 with too few bytes, or another with too many.
                    (5, 4, Err(refusal)) if value == 1 => assert_eq!(refusal, size(7)),
                    (8 | 22, 4, Err(refusal)) if [2, 3, 4, 6].contains(&value) => assert_eq!(refusal, size(5)),
                    (_, 4, Err(refusal)) => assert_eq!(refusal, field(4), "{message:02X?}"),
                    // An entry twice: the later one is told.
                    (8, 6 | 7, Err(refusal)) => assert_eq!(refusal, field(7), "{message:02X?}"),
                    (22, 6.., Err(refusal)) => {
                        let other = sample[6..].iter().position(|&entry| entry == value);
                        let other = 6 + other.expect("one of the entries");
                        assert_eq!(refusal, field(place.max(other)), "{message:02X?}");
                    }
                    (_, _, Err(refusal)) => panic!("{refusal:X} to {message:02X?}"),
                }
                expect_read(&mut given, way, &message, expected);
            }
            let expected = match (sample[2], sample.len(), place) {
                (0x42, 5, 4) => 4,
                (0x42, _, 4) => 1,
                (0x42, 8, 6 | 7) => 255,
                (0x42, 22, 6..) => 241,
                _ => 256,
            };
            assert_eq!(accepted, expected, "place {place} of {sample:02X?}");
        }
    }
    given.expect("every value of every byte", &[0, 6, 7]);
}

/// Every sub command in every size next to the right ones, with an entry twice where there is room: the sub command
/// comes first, then the size, then the entries.
#[test]
fn every_sub() {
    let mut given = Given::default();
    for sub in 0..=255 {
        for length in [5, 6, 7, 8, 9, 21, 22, 23, 127] {
            for is_repeated in [false, true] {
                let mut message = vec![length as u8, 0, 0x42, 7, sub, 0];
                message.extend((0..121).map(|index| if is_repeated { 0x10 } else { index }));
                message.truncate(length);
                let expected = match (sub, length) {
                    (2 | 3 | 4 | 6, 5) => None,
                    (2 | 3 | 4 | 6, _) => Some(size(5)),
                    (1, 8..=22) if is_repeated => Some(field(7)),
                    (1, 7..=22) => None,
                    (1, _) => Some(size(7)),
                    _ => Some(field(4)),
                };
                let answer = by_hand(Way::Down, &message);
                assert_eq!(answer.err(), expected, "{message:02X?}");
                expect_read(&mut given, Way::Down, &message, answer);
            }
        }
    }
    given.expect("every sub command", &[0, 6, 7]);
    // Four sub commands alone, in both turns; one list of one entry in both turns, and four longer ones.
    assert_eq!(given.seen()[0], 4 * 2 + 2 + 4);
    assert_eq!(given.seen()[7], 251 * 9 * 2 + 4);
}

/// A list of so many entries, none of them twice, in a message to port 9.
fn list_of(count: usize) -> Vec<u8> {
    let mut message = vec![(OPEN + count) as u8, 0, 0x42, 9, 1, 0];
    message.extend((0..count).map(|index| (index as u8).wrapping_mul(0x13)));
    message
}

/// Reads and writes a list. An entry that is there twice is told at the same place.
#[track_caller]
fn expect_list(given: &mut Given, message: &[u8], expected: Option<u64>) {
    let row = by_hand(Way::Down, &list_of(message.len() - OPEN)).expect("a list without an entry twice");
    let (read, written) = match expected {
        None => (Ok(row), Ok(message)),
        Some(refusal) => (Err(refusal), Err(refusal)),
    };
    expect_read(given, Way::Down, message, read);
    expect_written(given, Way::Down, &row, &message[OPEN..], message.len(), written);
    // It comes before the output, and before numbers that are too wide.
    if let Some(refusal) = expected {
        let mut wide = row;
        (wide[VALUES], wide[VALUES + 2]) = (300, 1 << 32);
        for output in [0, message.len() - 1, TOO_LONG] {
            expect_written(given, Way::Down, &wide, &message[OPEN..], output, Err(refusal));
        }
    }
}

/// Every two places of every list made the same: the later of them is told.
#[test]
fn an_entry_twice_at_every_two_places() {
    let mut given = Given::default();
    let mut pairs = 0;
    for count in 1..=16 {
        expect_list(&mut given, &list_of(count), None);
        for later in 0..count {
            for earlier in 0..later {
                let mut message = list_of(count);
                message[OPEN + later] = message[OPEN + earlier];
                expect_list(&mut given, &message, Some(field(OPEN + later)));
                pairs += 1;
            }
        }
    }
    given.expect("an entry twice at every two places", &[0, 7]);
    assert_eq!(pairs, (1..=16).map(|count| count * (count - 1) / 2).sum::<u64>());
}

/// Two entries twice in a list of sixteen, at every places: the first of the later ones is told.
#[test]
fn two_entries_twice() {
    let mut given = Given::default();
    let pairs: Vec<[usize; 2]> = (0..16)
        .flat_map(|later| (0..later).map(move |it| [it, later]))
        .collect();
    for [first, second] in &pairs {
        for [third, fourth] in &pairs {
            let places = [first, second, third, fourth];
            let is_apart = (0..4).all(|index| !places[..index].contains(&places[index]));
            if !is_apart {
                continue;
            }
            let mut message = list_of(16);
            message[OPEN + second] = message[OPEN + first];
            message[OPEN + fourth] = message[OPEN + third];
            expect_list(&mut given, &message, Some(field(OPEN + second.min(fourth))));
        }
    }
    given.expect("two entries twice", &[7]);
    assert!(given.calls() > 40_000);
}

/// Every list of up to five entries of a few bytes, by the definition.
#[test]
fn every_list_of_few_bytes() {
    const BYTES: [u8; 4] = [0x00, 0x10, 0x01, 0xFF];
    let mut given = Given::default();
    for count in 1..=5_u32 {
        for choice in 0..4_usize.pow(count) {
            let entries = (0..count).map(|index| BYTES[choice / 4_usize.pow(index) % 4]);
            let mut message = vec![OPEN as u8 + count as u8, 0, 0x42, 9, 1, 0];
            message.extend(entries);
            expect_list(&mut given, &message, first_repeat(&message[OPEN..]).map(field));
        }
    }
    given.expect("every list of few bytes", &[0, 7]);
    // Read and written: 4, 12, 24 and 24 lists have no entry twice.
    assert_eq!(given.seen()[0], 2 * (4 + 12 + 24 + 24));
}

/// Every byte of every sample replaced by every other, each way; only other types are left to the other tests.
#[test]
fn damage_of_every_byte() {
    let mut given = Given::default();
    for (_, sample) in SAMPLES {
        for place in 0..sample.len() {
            for value in 0..=255 {
                let mut message = sample.to_vec();
                message[place] = value;
                if place == 2 && !matches!(value, 0x42 | 0x46 | 0x48) {
                    continue;
                }
                for way in Way::BOTH {
                    expect_read(&mut given, way, &message, by_hand(way, &message));
                }
            }
        }
    }
    given.expect("damage of every byte", &[0, 2, 3, 4, 5, 6, 7]);
}

/// Numbers for a cell: those of a byte and next to them, and the edges of wider ones, some of which are right in their
/// low bits.
fn numbers() -> Vec<u64> {
    let mut numbers: Vec<u64> = (0..=300).collect();
    numbers.extend([511, 512 + 2, 65_534, 65_535, 65_536, 65_536 + 1, 65_536 + 6]);
    for power in [17, 31, 32, 48, 63] {
        let edge = 1_u64 << power;
        numbers.extend([edge - 1, edge, edge + 1, edge + 3, edge.wrapping_neg()]);
    }
    numbers.extend([u64::MAX - 1, u64::MAX]);
    numbers
}

/// Each cell of each form with many numbers, each way, with right and wrong open bytes, and with outputs that are long
/// enough or not.
#[test]
fn writing_every_number() {
    let mut given = Given::default();
    for (own, sample) in SAMPLES {
        let (right, right_open) = row_and_open(own, sample);
        let values = by_hand(own, sample).expect("a sample")[3] as usize;
        for cell in VALUES..VALUES + values {
            for number in numbers() {
                let mut row = right;
                row[cell] = number;
                for way in Way::BOTH {
                    for open in [right_open, b"", b"\x10\x10", &[0x5A; 17], &[0x5A; 122]] {
                        for output in [0, sample.len() - 1, sample.len(), TOO_LONG] {
                            expect_written_by_hand(&mut given, way, &row, open, output);
                        }
                    }
                }
            }
        }
    }
    given.expect("writing every number", &[0, 5, 6, 7, 8, 255]);
}

/// By hand, without the definitions above: the order of the refusals of writing.
#[test]
fn order_of_writing() {
    let mut given = Given::default();
    let row = |form: u64, values: &[u64]| {
        let mut row = [u64::MAX; ROW_CELLS];
        row[0] = form;
        row[VALUES..][..values.len()].copy_from_slice(values);
        row
    };
    let longest = [0x5A; 122];
    let cases: [(Way, Row, &[u8], u64); 26] = [
        (Way::Up, row(39, &[300, 300]), b"xx", OTHER_WAY),
        (Way::Up, row(40, &[300, 300, 300]), b"xx", OTHER_WAY),
        (Way::Down, row(41, &[300, 1 << 32]), b"", OTHER_WAY),
        (Way::Down, row(42, &[300, 300, 1 << 32]), b"xx", OTHER_WAY),
        // Selectors: in no list, another form's, wider than a byte; before open bytes and wide numbers.
        (Way::Down, row(39, &[300, 0]), b"xx", field(4)),
        (Way::Down, row(39, &[300, 1]), b"xx", field(4)),
        (Way::Down, row(39, &[300, 5]), b"xx", field(4)),
        (Way::Down, row(39, &[300, 256 + 2]), b"xx", field(4)),
        (Way::Down, row(40, &[300, 2, 300]), b"xx", field(4)),
        (Way::Down, row(40, &[300, 7, 300]), b"", field(4)),
        (Way::Down, row(40, &[300, 256 + 1, 300]), b"xx", field(4)),
        // Open bytes, before wide numbers and before entries that are there twice.
        (Way::Down, row(39, &[300, 6]), b"x", size(5)),
        (Way::Down, row(40, &[300, 1, 300]), b"", size(7)),
        (Way::Down, row(40, &[300, 1, 300]), &longest[..17], size(7)),
        (Way::Up, row(41, &[300, 1 << 32]), b"", size(7)),
        (Way::Up, row(41, &[300, 1 << 32]), &longest, size(7)),
        (Way::Up, row(42, &[300, 300, 1 << 32]), b"x", size(7)),
        // Entries, before wide numbers.
        (Way::Down, row(40, &[300, 1, 300]), b"xx", field(7)),
        (Way::Down, row(40, &[300, 1, 300]), b"\x10\x21\x21\x10", field(8)),
        (Way::Down, row(40, &[300, 1, 300]), &longest[..16], field(7)),
        // Wide numbers.
        (Way::Down, row(39, &[256, 6]), b"", WIDE),
        (Way::Down, row(40, &[0, 1, 256]), b"xy", WIDE),
        (Way::Up, row(41, &[0, 65_536]), b"x", WIDE),
        (Way::Up, row(41, &[256, 65_535]), b"x", WIDE),
        (Way::Up, row(42, &[0, 256, 65_535]), b"", WIDE),
        (Way::Up, row(42, &[255, 255, 65_536]), b"", WIDE),
    ];
    for (way, row, open, expected) in cases {
        for output in [0, 4, 6, 127, TOO_LONG] {
            expect_written(&mut given, way, &row, open, output, Err(expected));
        }
    }
    given.expect("order of writing", &[5, 6, 7, 255]);
}

/// Every number of open bytes from 0 to 140, with every output that is too short, that is not and that has more.
#[test]
fn every_number_of_open_bytes() {
    let mut given = Given::default();
    for count in 0..=TOO_LONG {
        // None of the first sixteen is there twice.
        let open: Vec<u8> = (0..count).map(|index| 0xFF - index as u8).collect();
        for (form, own, fewest, most, fields) in [
            (COMBINED_SETUP, Way::Down, 0, 0, &[9, 4][..]),
            (MODE_DATASETS, Way::Down, 1, 16, &[9, 1, 7]),
            (PORT_VALUE_COMBINED, Way::Up, 1, 121, &[9, 0x0103]),
            (INPUT_FORMAT_COMBINED, Way::Up, 0, 0, &[9, 7, 0x0103]),
        ] {
            let mut row = [u64::MAX; ROW_CELLS];
            row[0] = form;
            row[VALUES..][..fields.len()].copy_from_slice(fields);
            let start: &[u8] = match form {
                COMBINED_SETUP => b"\x42\x09\x04",
                MODE_DATASETS => b"\x42\x09\x01\x07",
                PORT_VALUE_COMBINED => b"\x46\x09\x03\x01",
                _ => b"\x48\x09\x07\x03\x01",
            };
            let length = 2 + start.len() + count;
            let message = [&[length as u8, 0], start, &open].concat();
            let is_right = (fewest..=most).contains(&count);
            for output in 0..=length + 4 {
                let expected = match is_right {
                    false => Err(size(2 + start.len() + fewest)),
                    true if output < length => Err(NO_OUTPUT),
                    true => Ok(&message[..]),
                };
                expect_written(&mut given, own, &row, &open, output, expected);
            }
            let other = if own == Way::Up { Way::Down } else { Way::Up };
            expect_written(&mut given, other, &row, &open, TOO_LONG, Err(OTHER_WAY));
        }
    }
    given.expect("every number of open bytes", &[0, 5, 6, 8]);
    // Each right number with five outputs that are long enough.
    assert_eq!(given.seen()[0], (1 + 16 + 121 + 1) * 5);
}

/// A random message of one of the four forms that is accepted.
fn any_message(random: &mut Random) -> (Way, Vec<u8>) {
    let mut message = vec![0, 0, 0, random.byte()];
    let way = match random.below(4) {
        0 => {
            message[2] = 0x42;
            message.push(random.one_of(&[2, 3, 4, 6]));
            Way::Down
        }
        1 => {
            message[2] = 0x42;
            message.extend([1, random.byte()]);
            let count = random.between(1, 16);
            while message.len() < OPEN + count {
                let entry = random.byte();
                if !message[OPEN..].contains(&entry) {
                    message.push(entry);
                }
            }
            Way::Down
        }
        2 => {
            message[2] = 0x46;
            let count = random.between(1, 121);
            message.extend((0..2 + count).map(|_| random.byte()));
            Way::Up
        }
        _ => {
            message[2] = 0x48;
            message.extend([random.byte(), random.byte(), random.byte()]);
            Way::Up
        }
    };
    message[0] = message.len() as u8;
    (way, message)
}

/// What was read is written, and what was written is read; the second program plays no part.
#[test]
fn round_trips() {
    let mut random = Random::new(61);
    let mut forms = [0; 4];
    for _ in 0..200_000 {
        let (way, message) = any_message(&mut random);
        let mut row = [0; ROW_CELLS];
        let answer = castanetash_read(&message, way_byte(way), &mut row);
        assert_eq!(answer, ROW_CELLS as u64, "{message:02X?}");
        assert_eq!(Ok(row), by_hand(way, &message), "{message:02X?}");
        let open = &message[row[1] as usize..][..row[2] as usize];
        let mut out = Lent::filled(message.len() + 2);
        let length = castanetash_write(&row, way_byte(way), open, out.lend());
        assert_eq!(length, message.len() as u64, "{message:02X?}");
        out.expect(&message, "a message that was read");
        let mut again = [0; ROW_CELLS];
        let written = &out.contents()[..message.len()];
        assert_eq!(castanetash_read(written, way_byte(way), &mut again), ROW_CELLS as u64);
        assert_eq!(again, row, "{message:02X?}");
        forms[row[0] as usize - 39] += 1;
    }
    println!("round trips by form: {forms:?}");
    assert!(forms.iter().all(|&trips| trips >= 40_000));
}

/// Random rows near to those of messages: what writing accepts is read back as it was.
#[test]
fn rows_that_are_written_are_read() {
    let mut random = Random::new(62);
    let mut given = Given::default();
    for _ in 0..200_000 {
        let (way, message) = any_message(&mut random);
        let (mut row, open) = row_and_open(way, &message);
        let mut open = open.to_vec();
        let values = by_hand(way, &message).expect("an accepted message")[3] as usize;
        if random.once_in(2) {
            let cell = VALUES + random.below(values);
            row[cell] = match random.below(3) {
                0 => random.one_of(&[0, 1, 2, 5, 6, 7, 255, 256, 65_535, 65_536]),
                1 => row[cell].wrapping_add(random.one_of(&[1, u64::MAX, 256, 1 << 32])),
                _ => random.number() >> random.below(64),
            };
        }
        if !open.is_empty() && random.once_in(4) {
            let [place, other] = [random.below(open.len()), random.below(open.len())];
            open[place] = open[other];
        }
        let output = if random.once_in(8) {
            random.below(message.len())
        } else {
            TOO_LONG
        };
        let expected = written_by_hand(way, &row, &open, output);
        expect_written_by_hand(&mut given, way, &row, &open, output);
        if let Ok(message) = expected {
            let mut cells = row;
            cells[1..VALUES].copy_from_slice(&[0, 0, values as u64]);
            if !open.is_empty() {
                cells[1..3].copy_from_slice(&[OPEN as u64, open.len() as u64]);
            }
            cells[VALUES + values..].fill(0);
            expect_read(&mut Given::default(), way, &message, Ok(cells));
        }
    }
    given.expect("rows that are written are read", &[0, 7, 8, 255]);
    assert!(given.seen()[0] >= 80_000);
}

/// The product's table, the second program's and the reader without a table. Each answer of theirs is held to one by
/// hand.
struct Ports {
    product: LentTable,
    table: Table,
    list: MessageList,
    given: Given,
}

impl Ports {
    /// No port is present.
    fn new() -> Ports {
        Ports {
            product: LentTable::empty(),
            table: Table::default(),
            list: MessageList::default(),
            given: Given::default(),
        }
    }

    /// Port 0 is attached.
    fn attached() -> Ports {
        let mut ports = Ports::new();
        ports.accept(Way::Up, ATTACH);
        ports
    }

    /// Offers a message with an experiment number. A refused one leaves the tables as they were.
    #[track_caller]
    fn offer_in(&mut self, experiment: u16, way: Way, message: &[u8], expected: u64) {
        let name = || format!("{message:02X?} {way:?}");
        let before = self.table.to_cells();
        let by_product = self.product.offer(way, message, experiment);
        let [answer, wanted] = [by_product, expected].map(|it| [it >> 32, it & 0xFFFF_FFFF]);
        assert_eq!(answer, wanted, "{}", name());
        let by_table = self.table.offer(way, message, experiment).map_err(refused);
        assert_eq!(by_table.err().unwrap_or(0), expected, "{}, second program", name());
        let by_list = self.list.push(way, message, experiment).map_err(refused);
        assert_eq!(by_list.err().unwrap_or(0), expected, "{}, without a table", name());
        assert_eq!(self.product.cells(), self.table.to_cells(), "{}", name());
        assert!(expected == 0 || self.table.to_cells() == before, "{}", name());
        self.given.count(&if expected == 0 { Ok(()) } else { Err(expected) });
    }

    /// The same in hex, with experiment number 0.
    #[track_caller]
    fn offer(&mut self, way: Way, message: &str, expected: u64) {
        self.offer_in(0, way, &bytes(message), expected);
    }

    #[track_caller]
    fn accept(&mut self, way: Way, message: &str) {
        self.offer(way, message, 0);
    }

    #[track_caller]
    fn accept_in(&mut self, experiment: u16, way: Way, message: &str) {
        self.offer_in(experiment, way, &bytes(message), 0);
    }

    /// The datasets of a message that goes up, all at once and one by one, or the refusal. If that is for a dataset that
    /// isn't finite, one by one they may be refused or not.
    #[track_caller]
    fn values(&mut self, message: &[u8], expected: Result<&[[u64; DATASET_CELLS]], u64>) {
        let name = || format!("the values of {message:02X?}");
        let all = expected.map(<[_]>::concat);
        assert_eq!(self.product.values(Way::Up, message), all, "{}", name());
        assert_eq!(values_cells(self.table.values(Way::Up, message)), all, "{}", name());
        assert_eq!(values_cells(self.list.values(Way::Up, message)), all, "{}", name());
        match expected {
            Ok(rows) => {
                for number in 0..=rows.len() + 1 {
                    self.dataset(message, number, rows.get(number).copied().ok_or(NO_DATASET));
                }
                let room = rows.len() * DATASET_CELLS;
                assert_eq!(self.product.values_in(Way::Up, message, room), all, "{}", name());
                let too_short = self.product.values_in(Way::Up, message, room - 1);
                assert_eq!(too_short, Err(WIDE), "{}", name());
            }
            Err(refusal) if refusal != NOT_FINITE => {
                for number in [0, 1, 15, usize::MAX] {
                    self.dataset(message, number, Err(refusal));
                }
                let no_room = self.product.values_in(Way::Up, message, 0);
                assert_eq!(no_room, Err(refusal), "{}", name());
            }
            Err(_) => {}
        }
        self.given.count(&expected);
    }

    /// One dataset of a message that goes up.
    #[track_caller]
    fn dataset(&mut self, message: &[u8], number: usize, expected: Result<[u64; DATASET_CELLS], u64>) {
        let name = || format!("dataset {number} of {message:02X?}");
        assert_eq!(self.product.dataset(Way::Up, message, number), expected, "{}", name());
        let by_table = self.table.hand_out(Way::Up, message, number);
        assert_eq!(dataset_cells(by_table), expected, "{}, second program", name());
        let by_list = self.list.hand_out(Way::Up, message, number);
        assert_eq!(dataset_cells(by_list), expected, "{}, without a table", name());
    }

    /// What is known of port 0: the first cells of its row up to the pointers, its list, and the one that was taken over.
    #[track_caller]
    fn port(&mut self, start: [u64; 15], list: &[u64], taken: &[u64]) {
        let mut row = [0; PORT_CELLS];
        row[..15].copy_from_slice(&start);
        for (cell, list) in [(15, list), (32, taken)] {
            row[cell] = list.len() as u64;
            row[cell + 1..][..list.len()].copy_from_slice(list);
        }
        assert_eq!(self.product.port(0), Ok(row));
        assert_eq!(port_cells(Ok(self.table.port(0))), Ok(row), "second program");
        assert_eq!(port_cells(Ok(self.list.port(0))), Ok(row), "without a table");
    }

    /// The state of port 0.
    #[track_caller]
    fn state(&mut self, expected: u64) {
        let row = self.product.port(0).expect("a sound table");
        assert_eq!(row[port_cell::STATE], expected);
        for port in [self.table.port(0), self.list.port(0)] {
            let state = port.expect("port 0 is present").state;
            assert_eq!(u64::from(state.number()), expected, "second program");
        }
    }
}

// Port 0: attached, device 26; detached; one dataset of 8 bits in mode 1, two of 16 bits in mode 2.
const ATTACH: &str = "0F 00 04 00 01 26 00 00 00 00 10 00 00 00 10";
const DETACH: &str = "05 00 04 00 00";
const FORMAT_1: &str = "0A 00 44 00 01 80 01 00 03 00";
const FORMAT_2: &str = "0A 00 44 00 02 80 02 01 05 00";

// Mode 2 asked and answered, with delta 1 and notifications; mode 1 answered.
const ASK_2: &str = "0A 00 41 00 02 01 00 00 00 01";
const ANSWER_2: &str = "0A 00 47 00 02 01 00 00 00 01";
const ANSWER_1: &str = "0A 00 47 00 01 01 00 00 00 01";

// The list 10 21 asked; the lists 21 10 and 10; a 48 with both pointers, with the first, with the second; the values
// -128 and -2 by that list.
const ASK_LIST: &str = "08 00 42 00 01 00 10 21";
const ASK_TURNED: &str = "08 00 42 00 01 00 21 10";
const ASK_ONE: &str = "07 00 42 00 01 00 10";
const BOTH: &str = "07 00 48 00 00 03 00";
const FIRST: &str = "07 00 48 00 00 01 00";
const SECOND: &str = "07 00 48 00 00 02 00";
const VALUES_OF_BOTH: &[u8] = b"\x09\x00\x46\x00\x03\x00\x80\xFE\xFF";

const fn minus(number: i64) -> u64 {
    number.wrapping_neg() as u64
}

/// Port 0 with both formats.
fn with_formats() -> Ports {
    let mut ports = Ports::attached();
    ports.accept(Way::Up, FORMAT_1);
    ports.accept(Way::Up, FORMAT_2);
    ports
}

/// Every sentence of the request about a port, step by step: its row after each message, and the datasets of its values.
#[test]
fn rows_of_a_port() {
    let mut ports = with_formats();
    ports.port([1, 0x26, 0, 0, 0, 0, 0, 0, 0, 0, 0, 0, 0, 0, 0], &[], &[]);
    ports.values(VALUES_OF_BOTH, Err(NOT_COMBINED));
    ports.offer(Way::Up, BOTH, POINTERS);
    // The other sub commands change nothing.
    for sub in ["02", "03", "04", "06"] {
        ports.accept_in(8, Way::Down, &format!("05 00 42 00 {sub}"));
    }
    ports.port([1, 0x26, 0, 0, 0, 0, 0, 0, 0, 0, 0, 0, 0, 0, 0], &[], &[]);
    // Sub command 1 sets the list and counts as what was asked.
    ports.accept_in(9, Way::Down, ASK_LIST);
    ports.port([1, 0x26, 0, 0, 1, 2, 0, 0, 0, 0, 0, 0, 0, 9, 0], &[0x10, 0x21], &[]);
    ports.values(VALUES_OF_BOTH, Err(NOT_COMBINED));
    // A 48 makes the port combined.
    ports.accept_in(7, Way::Up, BOTH);
    let list = [0x10, 0x21];
    let combined = [1, 0x26, 0, 0, 2, 2, 0, 0, 0, 2, 0, 0, 0, 9, 3];
    ports.port(combined, &list, &list);
    ports.values(
        VALUES_OF_BOTH,
        Ok(&[[0, minus(128), 0, 1, 2, 9], [0, minus(2), 0, 2, 2, 9]]),
    );
    ports.offer_in(6, Way::Up, VALUES_OF_BOTH, 0);
    // A list in place of a mode: a 45 is 14.
    ports.values(b"\x05\x00\x45\x00\x07", Err(NO_MODE));
    ports.offer(Way::Up, "05 00 45 00 07", NO_MODE);
    for sub in ["02", "03", "04", "06"] {
        ports.accept_in(8, Way::Down, &format!("05 00 42 00 {sub}"));
    }
    ports.port(combined, &list, &list);
    // Another list: a 46 is still read by the old one, in state 1 and without a number.
    ports.accept_in(10, Way::Down, ASK_TURNED);
    let asked_again = [1, 0x26, 0, 0, 1, 2, 0, 0, 0, 2, 0, 0, 0, 10, 3];
    ports.port(asked_again, &[0x21, 0x10], &list);
    let by_old = [[0, minus(128), 0, 1, 1, 0], [0, minus(2), 0, 2, 1, 0]];
    ports.values(VALUES_OF_BOTH, Ok(&by_old));
    // A refused 48 leaves the port as it was.
    ports.offer(Way::Up, "07 00 48 00 00 04 00", POINTERS);
    ports.offer(Way::Up, "07 00 48 00 00 00 00", POINTERS);
    ports.port(asked_again, &[0x21, 0x10], &list);
    ports.values(VALUES_OF_BOTH, Ok(&by_old));
    // A 48 with some of the pointers is state 3.
    ports.accept(Way::Up, SECOND);
    let part = [1, 0x26, 0, 0, 3, 2, 0, 0, 0, 2, 0, 0, 0, 10, 2];
    ports.port(part, &[0x21, 0x10], &[0x21, 0x10]);
    ports.values(VALUES_OF_BOTH, Err(POINTERS));
    ports.values(b"\x07\x00\x46\x00\x02\x00\x80", Ok(&[[0, minus(128), 0, 1, 3, 0]]));
    // A 41 leaves list and combination; a 48 after it is state 3.
    ports.accept_in(11, Way::Down, ASK_2);
    let mode_asked = [1, 0x26, 0, 0, 1, 1, 2, 1, 1, 2, 0, 0, 0, 11, 2];
    ports.port(mode_asked, &[0x21, 0x10], &[0x21, 0x10]);
    ports.accept(Way::Up, BOTH);
    let against_mode = [1, 0x26, 0, 0, 3, 1, 2, 1, 1, 2, 0, 0, 0, 11, 3];
    ports.port(against_mode, &[0x21, 0x10], &[0x21, 0x10]);
    // -384 and -1 are the same bytes by the turned list.
    ports.values(
        VALUES_OF_BOTH,
        Ok(&[[0, minus(384), 0, 2, 3, 0], [0, minus(1), 0, 1, 3, 0]]),
    );
    // A 47 makes it single again, and leaves the list.
    ports.accept(Way::Up, ANSWER_2);
    let single = [1, 0x26, 0, 0, 2, 1, 2, 1, 1, 1, 2, 1, 1, 11, 0];
    ports.port(single, &[0x21, 0x10], &[]);
    ports.values(VALUES_OF_BOTH, Err(NOT_COMBINED));
    ports.values(
        b"\x08\x00\x45\x00\x07\x00\xFE\xFF",
        Ok(&[[0, 7, 0, 2, 2, 11], [0, minus(2), 0, 2, 2, 11]]),
    );
    // A second 48 takes the list over again.
    ports.accept(Way::Up, FIRST);
    let again = [1, 0x26, 0, 0, 3, 1, 2, 1, 1, 2, 0, 0, 0, 11, 1];
    ports.port(again, &[0x21, 0x10], &[0x21, 0x10]);
    // A list asked, and answered by a 47: state 3.
    ports.accept_in(12, Way::Down, ASK_ONE);
    ports.accept(Way::Up, ANSWER_2);
    let by_mode = [1, 0x26, 0, 0, 3, 2, 0, 0, 0, 1, 2, 1, 1, 12, 0];
    ports.port(by_mode, &[0x10], &[]);
    // A re-attachment drops the list.
    ports.accept(Way::Up, FIRST);
    ports.accept(Way::Up, DETACH);
    ports.offer(Way::Up, FIRST, ABSENT);
    ports.accept(Way::Up, ATTACH);
    ports.port([1, 0x26, 0, 0, 0, 0, 0, 0, 0, 0, 0, 0, 0, 0, 0], &[], &[]);
    ports.offer(Way::Up, FIRST, POINTERS);
    ports.values(b"\x07\x00\x46\x00\x01\x00\x80", Err(NOT_COMBINED));
    // The formats went too, and a list is no format.
    ports.accept_in(13, Way::Down, ASK_ONE);
    ports.accept(Way::Up, FIRST);
    ports.values(b"\x07\x00\x46\x00\x01\x00\x80", Err(NO_FORMAT));
    ports.given.expect("rows of a port", &[0, 10, 14, 15, 20, 21]);
}

/// What a port was asked for and answers, in every order of two of each: the state.
#[test]
fn states() {
    let mut given = Given::default();
    // An answer, and whether it is what each of the three askings wants: mode 2, the list of two, the list of one.
    let askings = [ASK_2, ASK_LIST, ASK_ONE];
    let answers = [ANSWER_2, ANSWER_1, BOTH, FIRST];
    let mut states = [0; 4];
    for before in askings {
        for first in answers {
            for asked in askings {
                for answer in answers {
                    let mut ports = Ports::attached();
                    // A list, so that each 48 has one.
                    ports.accept(Way::Down, ASK_LIST);
                    ports.accept(Way::Down, before);
                    let one = before == ASK_ONE;
                    ports.offer(Way::Up, first, if one && first == BOTH { POINTERS } else { 0 });
                    ports.accept(Way::Down, asked);
                    ports.state(1);
                    states[1] += 1;
                    // The list that the port keeps now.
                    let one = asked == ASK_ONE || asked == ASK_2 && one;
                    let expected = match (asked, answer) {
                        (_, BOTH) if one => 1,
                        (ASK_2, ANSWER_2) | (ASK_LIST, BOTH) | (ASK_ONE, FIRST) => 2,
                        _ => 3,
                    };
                    ports.offer(Way::Up, answer, if one && answer == BOTH { POINTERS } else { 0 });
                    ports.state(expected);
                    states[expected as usize] += 1;
                    given.add(&ports.given);
                }
            }
        }
    }
    given.expect("states", &[0, 21]);
    println!("states: {states:?}");
    assert_eq!(states.iter().sum::<u64>(), 2 * 3 * 4 * 3 * 4);
    assert!(states[1..].iter().all(|&seen| seen >= 24));
}

/// The sixteen entries of a list: four of each of the modes 0 to 3, whose kinds are the same numbers.
fn sixteen_entries() -> Vec<u8> {
    (0..16).map(|index: u8| (index % 4) << 4 | (15 - index / 4)).collect()
}

/// What the entry of an index sends: its bytes, and its dataset's kind and value.
fn sent_by(index: usize) -> (Vec<u8>, [u64; 2]) {
    let byte = index as u8;
    match index % 4 {
        0 => (vec![0x80 + byte], [0, minus(128 - index as i64)]),
        1 => (vec![byte, 0xFF], [0, minus(256 - index as i64)]),
        2 => (vec![byte, 0, 0, 0x80], [0, minus(0x8000_0000 - index as i64)]),
        _ => {
            let float = 0.5 + index as f32;
            (float.to_le_bytes().to_vec(), [1, float.to_bits().into()])
        }
    }
}

/// Port 0 with formats of sixteen datasets in modes 0 to 3, combined with the list above.
fn with_sixteen() -> Ports {
    let mut ports = Ports::attached();
    for mode in 0..4 {
        let format = [0, mode, 0x80, 16, mode, 3, 0];
        let message = compose(Way::Up, Form::ValueFormat, &format, &[]);
        ports.offer_in(0, Way::Up, &message, 0);
    }
    let list = compose(Way::Down, Form::ModeDatasets, &[0, 1, 0], &sixteen_entries());
    ports.offer_in(0xABCD, Way::Down, &list, 0);
    ports.accept(Way::Up, "07 00 48 00 00 FF FF");
    ports
}

/// Every pointer word of a 46: as many values as it has ones, the lowest first, each with its entry's mode and width. A
/// byte more or less is 16, and no pointer 21.
#[test]
fn every_pointer_word_of_a_value() {
    let mut ports = with_sixteen();
    let entries = sixteen_entries();
    let mut by_ones = [0; 17];
    for pointers in 0..=u16::MAX {
        let mut message = vec![0, 0, 0x46, 0];
        message.extend(pointers.to_le_bytes());
        let mut rows = Vec::new();
        for (index, entry) in entries.iter().enumerate() {
            if pointers / (1 << index) % 2 == 1 {
                let (bytes, [kind, value]) = sent_by(index);
                message.extend(bytes);
                rows.push([kind, value, 0, (entry / 16).into(), 2, 0xABCD]);
            }
        }
        if rows.is_empty() {
            message.push(0);
        }
        message[0] = message.len() as u8;
        let expected = if rows.is_empty() {
            Err(POINTERS)
        } else {
            Ok(rows.concat())
        };
        assert_eq!(ports.product.values(Way::Up, &message), expected, "{message:02X?}");
        by_ones[rows.len()] += 1;
        // By all three, and with other sizes, now and then.
        if pointers % 61 == 0 || pointers.is_power_of_two() || pointers > 0xFFF0 {
            let expected = if rows.is_empty() { Err(POINTERS) } else { Ok(&rows[..]) };
            ports.values(&message, expected);
            let mut longer = message.clone();
            longer.push(0);
            longer[0] += 1;
            ports.values(&longer, Err(if rows.is_empty() { POINTERS } else { VALUE_SIZE }));
            if message.len() > 7 {
                message.pop();
                message[0] -= 1;
                ports.values(&message, Err(VALUE_SIZE));
            }
        }
    }
    ports.given.expect("every pointer word of a value", &[0, 16, 21]);
    println!("by ones {by_ones:?}");
    // As many words as there are ways to choose the ones.
    assert_eq!(by_ones[..5], [1, 16, 120, 560, 1820]);
    assert_eq!(by_ones.iter().sum::<u64>(), 65_536);
}

/// Every pointer word of a 48 to lists of several lengths: 21 without a pointer and with one past the list, else state 2
/// with all of the list's pointers, and 3 with some.
#[test]
fn every_pointer_word_of_an_answer() {
    let mut seen = [0; 3];
    for count in [1, 2, 3, 8, 15, 16] {
        let mut ports = Ports::attached();
        let list = compose(Way::Down, Form::ModeDatasets, &[0, 1, 0], &sixteen_entries()[..count]);
        ports.offer_in(5, Way::Down, &list, 0);
        let whole = 2_u32.pow(count as u32) - 1;
        for pointers in 0..=u16::MAX {
            let word = u32::from(pointers);
            let mut message = vec![7, 0, 0x48, 0, pointers as u8];
            message.extend(pointers.to_le_bytes());
            let mut product = ports.product.clone();
            let answer = product.offer(Way::Up, &message, 9);
            if word == 0 || word > whole {
                assert_eq!(answer, POINTERS, "{message:02X?} to {count} entries");
                seen[0] += 1;
            } else {
                assert_eq!(answer, 0, "{message:02X?} to {count} entries");
                let state = if word == whole { 2 } else { 3 };
                // The cells of the record: state, asking, number, answer.
                let cells = [state, 17, 0, 0, 5, 17, word, 0];
                assert_eq!(product.cells()[5..13], cells, "{message:02X?} to {count} entries");
                seen[state as usize - 1] += 1;
            }
            if pointers % 257 == 0 || word == whole || word == whole + 1 {
                let mut table = ports.table.clone();
                let mut list = ports.list.clone();
                let by_table = table.offer(Way::Up, &message, 9).map_err(refused);
                assert_eq!(by_table.err().unwrap_or(0), answer);
                assert_eq!(list.push(Way::Up, &message, 9).map_err(refused), by_table);
                assert_eq!(product.cells(), table.to_cells());
                assert_eq!(list.port(0), table.port(0));
            }
        }
    }
    println!("every pointer word of an answer: refused, state 2, state 3: {seen:?}");
    let accepted = [1, 2, 3, 8, 15, 16]
        .map(|count| 2_u64.pow(count) - 1)
        .iter()
        .sum::<u64>();
    assert_eq!(seen, [6 * 65_536 - accepted, 6, accepted - 6]);
}

/// Every part of five pointers in a 48, and every word of six bits, and some with high bits, in a 46: accepted where it
/// has a pointer and no other than the 48's.
#[test]
fn pointers_of_a_value_and_of_the_answer() {
    let mut ports = Ports::attached();
    ports.accept(Way::Up, "0A 00 44 00 01 80 10 00 03 00");
    ports.accept(Way::Down, "0B 00 42 00 01 00 10 11 12 13 14");
    let mut accepted = 0;
    for sent in 1..32_u64 {
        let answer = compose(Way::Up, Form::InputFormatCombined, &[0, 0, sent], &[]);
        ports.offer_in(0, Way::Up, &answer, 0);
        let state = if sent == 31 { 2 } else { 3 };
        for pointers in (0..64).chain([1 << 15 | sent, 1 << 8 | sent, 1 << 5, 0xFFFF, 0xFF00]) {
            let bits: Vec<u64> = (0..16).filter(|bit| pointers >> bit & 1 == 1).collect();
            let is_right = !bits.is_empty() && bits.iter().all(|bit| sent >> bit & 1 == 1);
            let values: Vec<u8> = (0..bits.len().max(1)).map(|index| index as u8).collect();
            let message = compose(Way::Up, Form::PortValueCombined, &[0, pointers], &values);
            let rows: Vec<[u64; 6]> = (0..bits.len() as u64).map(|value| [0, value, 0, 1, state, 0]).collect();
            ports.values(&message, if is_right { Ok(&rows[..]) } else { Err(POINTERS) });
            accepted += u64::from(is_right);
        }
    }
    ports.given.expect("pointers of a value and of the answer", &[0, 21]);
    // The parts of each part of five, without the empty one.
    assert_eq!(
        accepted,
        (1..32_u32).map(|sent| 2_u64.pow(sent.count_ones()) - 1).sum::<u64>()
    );
}

/// What may be wrong with an entry, and its width else.
const ENTRY_KINDS: [Entry; 6] = [
    Entry::NoFormat,
    Entry::NoDataset,
    Entry::Right(0, 1),
    Entry::Right(1, 2),
    Entry::Right(2, 4),
    Entry::Right(3, 4),
];

#[derive(Clone, Copy)]
enum Entry {
    /// Its mode has no format.
    NoFormat,
    /// Its dataset isn't below the format's count.
    NoDataset,
    /// Its kind and width.
    Right(u64, usize),
}

/// Three entries, each wrong in some way or right in some width, with every pointer word and with sizes that are right
/// and not: 15 for any entry pointed at, then 17 for any, then 16.
#[test]
fn every_mix_of_entries() {
    let mut given = Given::default();
    for choice in 0..6_usize.pow(3) {
        let kinds = [choice % 6, choice / 6 % 6, choice / 36].map(|index| ENTRY_KINDS[index]);
        let mut ports = Ports::attached();
        for (mode, kind) in kinds.into_iter().enumerate() {
            let format = match kind {
                Entry::NoFormat => continue,
                // The dataset is 2.
                Entry::NoDataset => [0, mode as u64, 0x80, 2, 0, 3, 0],
                Entry::Right(kind, _) => [0, mode as u64, 0x80, 3, kind, 3, 0],
            };
            let message = compose(Way::Up, Form::ValueFormat, &format, &[]);
            ports.offer_in(0, Way::Up, &message, 0);
        }
        ports.accept(Way::Down, "09 00 42 00 01 00 02 12 22");
        ports.accept(Way::Up, "07 00 48 00 00 07 00");
        for pointers in 1..8_u64 {
            let pointed: Vec<Entry> = (0..3)
                .filter(|bit| pointers >> bit & 1 == 1)
                .map(|bit| kinds[bit])
                .collect();
            let widths = pointed.iter().map(|kind| match kind {
                Entry::Right(_, width) => *width,
                _ => 1,
            });
            let right: usize = widths.sum();
            for bytes in [right - 1, right, right + 1, 12] {
                if bytes == 0 {
                    continue;
                }
                let expected = if pointed.iter().any(|kind| matches!(kind, Entry::NoFormat)) {
                    NO_FORMAT
                } else if pointed.iter().any(|kind| matches!(kind, Entry::NoDataset)) {
                    NO_DATASET
                } else if bytes != right {
                    VALUE_SIZE
                } else {
                    0
                };
                let message = compose(Way::Up, Form::PortValueCombined, &[0, pointers], &vec![0; bytes]);
                ports.offer_in(0, Way::Up, &message, expected);
                let datasets = ports.product.values(Way::Up, &message).map(|cells| cells.len() / 6);
                let counted = if expected == 0 {
                    Ok(pointed.len())
                } else {
                    Err(expected)
                };
                assert_eq!(datasets, counted, "{message:02X?}");
                given.count(&counted);
            }
        }
    }
    given.expect("every mix of entries", &[0, 15, 16, 17]);
}

// Port 0 for the order of refusals: modes 1 and 2 have one dataset of 8 bits each, mode 3 has no format. The list is 10,
// 1F, 30, 20. It is answered by a 48 that has no pointer to the last, or by a 47.
const NARROW_2: &str = "0A 00 44 00 02 80 01 00 03 00";
const ASK_FOUR: &str = "0A 00 42 00 01 00 10 1F 30 20";
const COMBINED: &[&str] = &[ATTACH, FORMAT_1, NARROW_2, ASK_FOUR, "07 00 48 00 00 07 00"];
const SINGLE: &[&str] = &[ATTACH, FORMAT_1, NARROW_2, ASK_FOUR, ANSWER_1];

/// What is offered before, a 46, and its refusal.
type Refused46 = (&'static [&'static str], &'static str, u64);

/// Two refusals of a 46 that compete, in each pair: with both reasons it is the first; without that reason the other.
#[rustfmt::skip]
const COMPETING: [[Refused46; 2]; 15] = [
    // 10 before all: the port isn't there, so nothing is known of it.
    [(&[], "07 00 46 00 01 00 00", ABSENT), (SINGLE, "07 00 46 00 01 00 00", NOT_COMBINED)],
    [(&[], "07 00 46 00 00 00 00", ABSENT), (COMBINED, "07 00 46 00 00 00 00", POINTERS)],
    [(&[], "07 00 46 00 04 00 00", ABSENT), (COMBINED, "07 00 46 00 04 00 00", NO_FORMAT)],
    [(&[], "07 00 46 00 02 00 00", ABSENT), (COMBINED, "07 00 46 00 02 00 00", NO_DATASET)],
    [(&[], "08 00 46 00 01 00 00 00", ABSENT), (COMBINED, "08 00 46 00 01 00 00 00", VALUE_SIZE)],
    // 20: no pointer, an entry without a format, without the dataset, a wrong size.
    [(SINGLE, "07 00 46 00 00 00 00", NOT_COMBINED), (COMBINED, "07 00 46 00 00 00 00", POINTERS)],
    [(SINGLE, "07 00 46 00 04 00 00", NOT_COMBINED), (COMBINED, "07 00 46 00 04 00 00", NO_FORMAT)],
    [(SINGLE, "07 00 46 00 02 00 00", NOT_COMBINED), (COMBINED, "07 00 46 00 02 00 00", NO_DATASET)],
    [(SINGLE, "08 00 46 00 01 00 00 00", NOT_COMBINED), (COMBINED, "08 00 46 00 01 00 00 00", VALUE_SIZE)],
    // 21: a pointer that the 48 has not, beside an entry without a format, without the dataset, a wrong size.
    [(COMBINED, "08 00 46 00 0C 00 00 00", POINTERS), (COMBINED, "08 00 46 00 04 00 00 00", NO_FORMAT)],
    [(COMBINED, "08 00 46 00 0A 00 00 00", POINTERS), (COMBINED, "08 00 46 00 02 00 00 00", NO_DATASET)],
    [(COMBINED, "09 00 46 00 09 00 00 00 00", POINTERS), (COMBINED, "09 00 46 00 01 00 00 00 00", VALUE_SIZE)],
    // 15, though the entry before it has no such dataset; and a wrong size.
    [(COMBINED, "08 00 46 00 06 00 00 00", NO_FORMAT), (COMBINED, "08 00 46 00 02 00 00 00", NO_DATASET)],
    [(COMBINED, "0A 00 46 00 05 00 00 00 00 00", NO_FORMAT), (COMBINED, "0A 00 46 00 01 00 00 00 00 00", VALUE_SIZE)],
    // 17 and a wrong size.
    [(COMBINED, "09 00 46 00 03 00 00 00 00", NO_DATASET), (COMBINED, "09 00 46 00 01 00 00 00 00", VALUE_SIZE)],
];

#[test]
fn order_of_refusals() {
    let mut given = Given::default();
    for (before, value, expected) in COMPETING.into_iter().flatten() {
        let mut ports = Ports::new();
        for message in before {
            let way = if message.contains(" 42 ") { Way::Down } else { Way::Up };
            ports.accept(way, message);
        }
        ports.offer(Way::Up, value, expected);
        ports.values(&bytes(value), Err(expected));
        given.count(&Err::<(), u64>(expected));
    }
    given.expect("order of refusals", &[10, 15, 16, 17, 20, 21]);
    // Each pair of these, in their order.
    let order = [10, 20, 21, 15, 17, 16];
    let all = (0..6).flat_map(|first| (first + 1..6).map(move |second| [order[first], order[second]]));
    assert!(all.eq(COMPETING.map(|pair| pair.map(|(_, _, refusal)| number(refusal)))));
}

/// The refusals of a 48 and a 42, and what reading refuses before.
#[test]
fn order_of_refusals_of_lists_and_answers() {
    let mut ports = Ports::new();
    for (way, message, expected) in [
        (Way::Down, "05 00 42 00 02", ABSENT),
        (Way::Down, "05 00 42 00 05", field(4)),
        (Way::Down, ASK_LIST, ABSENT),
        (Way::Down, "08 00 42 00 01 00 10 10", field(7)),
        (Way::Up, ASK_LIST, OTHER_WAY),
        (Way::Up, BOTH, ABSENT),
        (Way::Up, "07 00 48 00 00 00 00", ABSENT),
        (Way::Up, "06 00 48 00 00 00", size(7)),
        (Way::Down, BOTH, OTHER_WAY),
        (Way::Up, "06 00 46 00 00 00", size(7)),
        (Way::Up, ATTACH, 0),
        (Way::Down, "05 00 42 00 02", 0),
        (Way::Up, BOTH, POINTERS),
        (Way::Up, "07 00 48 00 00 00 00", POINTERS),
        (Way::Down, ASK_ONE, 0),
        (Way::Up, "07 00 48 00 00 00 00", POINTERS),
        (Way::Up, BOTH, POINTERS),
        (Way::Up, "07 00 48 00 00 01 80", POINTERS),
        (Way::Up, FIRST, 0),
        // A command for motors and feedback to a combined port.
        (Way::Down, "0E 00 81 00 11 14 00 00 00 00 00 00 00 00", refusal(22, 0)),
        (Way::Down, "0E 00 81 00 11 0D 00 00 00 00 01 00 00 00", 0),
        (Way::Up, "05 00 82 00 0A", 0),
        (Way::Up, ATTACH, refusal(11, 0)),
    ] {
        ports.offer(way, message, expected);
    }
    ports
        .given
        .expect("order of refusals of lists and answers", &[0, 5, 6, 7, 10, 11, 21, 22]);
}

/// A float of a 46 that is no number: offering accepts it, one dataset is refused alone, and all are refused with it.
#[test]
fn floats_that_are_no_numbers() {
    let mut ports = Ports::attached();
    ports.accept(Way::Up, FORMAT_1);
    ports.accept(Way::Up, "0A 00 44 00 03 80 02 03 08 03");
    ports.accept_in(9, Way::Down, "09 00 42 00 01 00 10 30 31");
    ports.accept(Way::Up, "07 00 48 00 00 07 00");
    let one = 1.0_f32;
    let mut refusals = 0;
    for bits in [0x7F80_0000_u32, 0xFF80_0000, 0x7FC0_0000, 0x7F80_0001, 0xFFFF_FFFF] {
        for wrong in [1, 2] {
            let mut floats = [0, one.to_bits(), one.to_bits()];
            floats[wrong] = bits;
            let values = [&[0xFE][..], &floats[1].to_le_bytes(), &floats[2].to_le_bytes()].concat();
            let message = compose(Way::Up, Form::PortValueCombined, &[0, 7], &values);
            ports.offer_in(0, Way::Up, &message, 0);
            ports.values(&message, Err(NOT_FINITE));
            ports.dataset(&message, 0, Ok([0, minus(2), 0, 1, 2, 9]));
            for number in [1, 2] {
                let float = Ok([1, one.to_bits().into(), 0, 3, 2, 9]);
                ports.dataset(&message, number, if number == wrong { Err(NOT_FINITE) } else { float });
            }
            ports.dataset(&message, 3, Err(NO_DATASET));
            refusals += 1;
        }
    }
    println!("floats that are no numbers: {refusals}");
    assert_eq!(refusals, 10);
}

/// Every experiment number comes back from the table's cells, from the port and, in state 2, from the value: it is that
/// of the list, and not of its answer.
#[test]
fn every_experiment_number() {
    let mut cells = with_formats().product.cells().to_vec();
    let [ask, answer] = [ASK_LIST, BOTH].map(bytes);
    for experiment in 0..=u16::MAX {
        let asked = u64::from(experiment);
        let (mut port, mut dataset, mut rows) = ([0; PORT_CELLS], [0; DATASET_CELLS], [0; 2 * DATASET_CELLS]);
        for (message, way, given, state) in [(&ask, 0, experiment, 1), (&answer, 1, !experiment, 2)] {
            assert_eq!(castanetash_offer(&mut cells, message, way, given), 0);
            assert_eq!(cells[9], experiment.into());
            let is_combined = state == 2 || experiment > 0;
            let answers = [
                castanetash_port(&mut cells, 0, &mut port),
                castanetash_dataset(&mut cells, VALUES_OF_BOTH, 1, 1, &mut dataset),
                castanetash_values(&mut cells, VALUES_OF_BOTH, 1, &mut rows),
            ];
            let name = format!("experiment {experiment} in state {state}");
            assert_eq!([port[4], port[13]], [state, asked], "{name}");
            if !is_combined {
                assert_eq!(answers[1..], [NOT_COMBINED; 2], "{name}");
                continue;
            }
            let carried = if state == 2 { asked } else { 0 };
            assert_eq!(answers.map(number), [0; 3], "{name}");
            assert_eq!(dataset, [0, minus(2), 0, 2, state, carried], "{name}");
            assert_eq!(rows[..6], [0, minus(128), 0, 1, state, carried], "{name}");
            assert_eq!(rows[6..], dataset, "{name}");
        }
    }
}

/// The longest list, and lists of every length, come back from the port; the entries after them are zeros.
#[test]
fn lists_of_every_length() {
    let mut ports = Ports::attached();
    for count in (1..=16).chain((1..=16).rev()) {
        let entries = &sixteen_entries()[16 - count..];
        let list = compose(Way::Down, Form::ModeDatasets, &[0, 1, 0], entries);
        let old = ports.product.port(0).expect("a sound table");
        ports.offer_in(3, Way::Down, &list, 0);
        let row = ports.product.port(0).expect("a sound table");
        let mut cells = [0; MOST_ENTRIES];
        for (cell, &entry) in cells.iter_mut().zip(entries) {
            *cell = entry.into();
        }
        assert_eq!(row[port_cell::LIST], count as u64);
        assert_eq!(row[port_cell::LIST_ENTRIES..port_cell::TAKEN], cells);
        // The list that was taken over is the one before.
        assert_eq!(row[port_cell::TAKEN..], old[port_cell::TAKEN..]);
        let pointers = u64::from(u16::MAX >> (16 - count));
        let answer = compose(Way::Up, Form::InputFormatCombined, &[0, 0, pointers], &[]);
        ports.offer_in(4, Way::Up, &answer, 0);
        let row = ports.product.port(0).expect("a sound table");
        assert_eq!(row[port_cell::TAKEN], count as u64);
        assert_eq!(row[port_cell::TAKEN_ENTRIES..], cells);
        assert_eq!(row[port_cell::POINTERS], pointers);
        assert_eq!(port_cells(Ok(ports.table.port(0))), Ok(row));
        assert_eq!(port_cells(Ok(ports.list.port(0))), Ok(row));
    }
    ports.given.expect("lists of every length", &[0]);
}

/// Lines by the product's call, by its log reader and by the second program: port, state, number, pointer word, values.
#[test]
fn lines() {
    let sent: [(Way, u16, &str, &str); 30] = [
        (Way::Up, 1, ATTACH, "0"),
        (Way::Up, 2, FORMAT_1, "0"),
        (Way::Up, 3, FORMAT_2, "0"),
        (Way::Up, 4, "09 00 46 00 03 00 80 FE FF", "20"),
        (Way::Up, 4, BOTH, "21"),
        (Way::Down, 9, ASK_LIST, "0"),
        (Way::Down, 8, "05 00 42 00 03", "0"),
        (Way::Up, 5, BOTH, "0"),
        // The readings' own example.
        (Way::Up, 6, "09 00 46 00 03 00 80 FE FF", "0 0 2 9 3 -128 -2"),
        (Way::Up, 6, "07 00 46 00 01 00 7F", "0 0 2 9 1 127"),
        (Way::Up, 6, "08 00 46 00 02 00 00 80", "0 0 2 9 2 -32768"),
        (Way::Up, 6, "07 00 46 00 02 00 7F", "16"),
        (Way::Up, 6, "07 00 46 00 04 00 7F", "21"),
        (Way::Up, 6, "07 00 46 00 00 00 7F", "21"),
        (Way::Up, 6, "05 00 45 00 07", "14"),
        // Another list: a float, a dataset that mode 1 has not, a mode without a format.
        (Way::Down, 10, "0A 00 42 00 01 00 30 11 40 10", "0"),
        (Way::Up, 6, "09 00 46 00 03 00 80 FE FF", "0 0 1 0 3 -128 -2"),
        (Way::Up, 6, "07 00 48 00 00 0F 00", "0"),
        (Way::Up, 6, "07 00 46 00 01 00 00", "15"),
        (Way::Up, 6, "0A 00 44 00 03 80 01 03 08 03", "0"),
        (Way::Up, 6, "07 00 46 00 02 00 00", "17"),
        (Way::Up, 6, "07 00 46 00 06 00 00", "15"),
        (
            Way::Up,
            6,
            "0B 00 46 00 09 00 00 00 80 BF FE",
            "0 0 2 10 9 3212836864 -2",
        ),
        (Way::Up, 6, "0B 00 46 00 09 00 00 00 80 7F FE", "18"),
        (Way::Down, 10, "09 00 42 00 01 00 30 11 30", "7"),
        (Way::Up, 6, "07 00 48 00 00 01 00", "0"),
        (Way::Up, 6, "0A 00 46 00 01 00 00 00 80 BF", "0 0 3 0 1 3212836864"),
        (Way::Up, 6, ANSWER_1, "0"),
        (Way::Up, 6, "05 00 45 00 FE", "0 0 1 3 0 -2"),
        (Way::Up, 6, "07 00 46 63 01 00 00", "10"),
    ];
    let mut log = Vec::new();
    let mut lines = String::new();
    let mut refused = 0;
    for (index, (way, experiment, message, answer)) in sent.into_iter().enumerate() {
        log.extend(log_record(index as u32, way, &bytes(message), experiment));
        lines += &format!("{} {answer}\n", index + 1);
        refused += u64::from(!answer.starts_with('0'));
    }
    let (mut table, mut totals) = (Lent::holding(&[0; TABLE_CELLS]), Lent::holding(&[0, 0]));
    let mut text = Lent::filled(lines.len() + LINE_ROOM);
    let answer = castanetash_read_block(table.lend(), totals.lend(), &log, text.lend());
    assert_eq!(answer, lines.len() as u64);
    text.expect(lines.as_bytes(), "lines of combined ports");
    totals.expect(&[30, refused], "totals of combined ports");

    let whole = lines + &format!("total 30 refused {refused}\n");
    let mut by_second = Vec::new();
    read_log(&log[..], &mut by_second).expect("reading from memory");
    assert_eq!(String::from_utf8_lossy(&by_second), whole);
    let by_program = printed(&log);
    assert_eq!(String::from_utf8_lossy(&by_program.stdout), whole);
    assert!(by_program.stderr.is_empty());
}

/// The longest line of a 46: the greatest of all its numbers, and sixteen times -2147483648. There is room for it.
#[test]
fn longest_line() {
    let mut ports = Table::default();
    let entries: Vec<u8> = (0xF0..=0xFF).collect();
    for (way, message) in [
        (Way::Up, bytes("0F 00 04 FF 01 26 00 00 00 00 10 00 00 00 10")),
        (Way::Up, bytes("0A 00 44 FF 0F 80 10 02 03 00")),
        (
            Way::Down,
            compose(Way::Down, Form::ModeDatasets, &[255, 1, 0], &entries),
        ),
        (Way::Up, bytes("07 00 48 FF 00 FF FF")),
    ] {
        assert_eq!(ports.offer(way, &message, u16::MAX), Ok(()), "{message:02X?}");
    }
    let least = [0x00, 0x00, 0x00, 0x80].repeat(16);
    let message = compose(Way::Up, Form::PortValueCombined, &[255, 0xFFFF], &least);
    let log = log_record(0, Way::Up, &message, 0);
    let line = format!("{} 0 255 2 65535 65535{}\n", u64::MAX, " -2147483648".repeat(16));
    let (mut table, mut totals) = (Lent::holding(&ports.to_cells()), Lent::holding(&[u64::MAX - 1, 7]));
    let mut text = Lent::filled(LINE_ROOM);
    let answer = castanetash_read_block(table.lend(), totals.lend(), &log, text.lend());
    assert_eq!(answer, line.len() as u64);
    text.expect(line.as_bytes(), "the longest line");
    totals.expect(&[u64::MAX, 7], "totals");
    table.expect_unchanged("a 46 changes nothing");
    assert!(line.len() <= LINE_ROOM);
}
