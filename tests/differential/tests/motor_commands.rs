//! The commands for motors, 81 down, and their feedback, 82 up: reading, writing, tables and logs. All answers are
//! written out by hand, field by field, and both programs are held to them.

use differential::by_hand::{expect_read, expect_written, refusal, Given};
use differential::{
    castanetash_read, castanetash_read_block, castanetash_write, printed, refused, way_byte, Lent, LentTable, Random,
    TableTally, Trio, ROW_CELLS,
};
use yardstick::traffic::{Scene, Traffic};
use yardstick::{decode, log_record, read_log, MessageList, Row, Table, Way, LINE_ROOM, TABLE_CELLS};

const OTHER_WAY: u64 = refusal(5, 2);
const NO_OUTPUT: u64 = refusal(8, 0);
const ABSENT: u64 = refusal(10, 0);
const NO_DATASET: u64 = refusal(17, 0);
const NOT_VIRTUAL: u64 = refusal(22, 0);
const WIDE: u64 = refusal(255, 0);

const fn size(wanted: usize) -> u64 {
    refusal(6, wanted)
}

const fn field(place: usize) -> u64 {
    refusal(7, place)
}

/// Where the values of a row start, the place of a command's sub, and the size that holds it.
const VALUES: usize = 4;
const SUB: usize = 5;
const SUB_SIZE: usize = 6;

/// The longest message and the longest that is tried.
const LONGEST: usize = 127;
const TOO_LONG: usize = 140;

/// What may stand in a field.
#[derive(Clone, Copy)]
enum List {
    Any,
    Range(i64, i64),
    Numbers(&'static [i64]),
}

impl List {
    fn has(self, number: i64) -> bool {
        match self {
            List::Any => true,
            List::Range(least, most) => least <= number && number <= most,
            List::Numbers(numbers) => numbers.contains(&number),
        }
    }
}

/// A field of a command: its first byte's place, and what it is.
#[derive(Clone, Copy)]
struct Field {
    place: usize,
    kind: Kind,
    list: List,
}

#[derive(Clone, Copy, PartialEq, Eq)]
enum Kind {
    Byte,
    SignedByte,
    SignedFourBytes,
}

impl Kind {
    fn width(self) -> usize {
        match self {
            Kind::Byte | Kind::SignedByte => 1,
            Kind::SignedFourBytes => 4,
        }
    }

    /// Whether a row's cell is a number of this kind.
    fn holds(self, cell: u64) -> bool {
        let number = cell as i64;
        match self {
            Kind::Byte => (0..=255).contains(&number),
            Kind::SignedByte => (-128..=127).contains(&number),
            Kind::SignedFourBytes => (-2_147_483_648..=2_147_483_647).contains(&number),
        }
    }
}

const fn byte(place: usize, list: List) -> Field {
    let kind = Kind::Byte;
    Field { place, kind, list }
}

const PORT: Field = byte(3, List::Any);
const START: Field = byte(4, List::Numbers(&[0x00, 0x01, 0x10, 0x11]));

const fn sub(number: &'static [i64]) -> Field {
    byte(SUB, List::Numbers(number))
}

const fn speed(place: usize) -> Field {
    byte(place, List::Range(1, 100))
}

const fn signed_speed(place: usize) -> Field {
    Field {
        place,
        kind: Kind::SignedByte,
        list: List::Range(-100, 100),
    }
}

const fn power(place: usize) -> Field {
    byte(place, List::Range(0, 100))
}

const fn end_state(place: usize) -> Field {
    byte(place, List::Numbers(&[0, 126, 127]))
}

const fn profile(place: usize) -> Field {
    byte(place, List::Range(0, 3))
}

const fn four_bytes(place: usize, list: List) -> Field {
    Field {
        place,
        kind: Kind::SignedFourBytes,
        list,
    }
}

/// A command: the number of its form, its size, its fields from left to right, and a message of it.
struct Command {
    form: u64,
    sub: u8,
    size: usize,
    fields: &'static [Field],
    sample: &'static [u8],
}

const COMMANDS: [Command; 4] = [
    Command {
        form: 34,
        sub: 0x0C,
        size: 15,
        fields: &[
            PORT,
            START,
            sub(&[0x0C]),
            four_bytes(6, List::Range(0, 10_000_000)),
            signed_speed(10),
            signed_speed(11),
            power(12),
            end_state(13),
            profile(14),
        ],
        sample: b"\x0F\x00\x81\x10\x11\x0C\x68\x01\x00\x00\x32\xCE\x64\x7E\x03",
    },
    Command {
        form: 35,
        sub: 0x0D,
        size: 14,
        fields: &[
            PORT,
            START,
            sub(&[0x0D]),
            four_bytes(6, List::Any),
            speed(10),
            power(11),
            end_state(12),
            profile(13),
        ],
        sample: b"\x0E\x00\x81\x02\x10\x0D\xFD\xFF\xFF\xFF\x01\x63\x7F\x02",
    },
    Command {
        form: 36,
        sub: 0x0E,
        size: 18,
        fields: &[
            PORT,
            START,
            sub(&[0x0E]),
            four_bytes(6, List::Any),
            four_bytes(10, List::Any),
            speed(14),
            power(15),
            end_state(16),
            profile(17),
        ],
        sample: b"\x12\x00\x81\x10\x01\x0E\x5A\x00\x00\x00\xA6\xFF\xFF\xFF\x64\x00\x00\x01",
    },
    Command {
        form: 37,
        sub: 0x14,
        size: 14,
        fields: &[
            PORT,
            START,
            sub(&[0x14]),
            four_bytes(6, List::Any),
            four_bytes(10, List::Any),
        ],
        sample: b"\x0E\x00\x81\x10\x00\x14\x04\x03\x02\x81\xFF\xFF\xFF\x7F",
    },
];

/// Feedback: its form, its smallest size, the most bytes of pairs, and a message of three pairs.
const FEEDBACK: u64 = 38;
const ONE_PAIR: usize = 5;
const MOST_OPEN: usize = 124;
const FEEDBACK_SAMPLE: &[u8] = b"\x09\x00\x82\x10\x0A\x00\x01\x01\x1F";

/// The messages of all five forms with their ways.
fn samples() -> Vec<(Way, &'static [u8])> {
    let commands = COMMANDS.iter().map(|command| (Way::Down, command.sample));
    commands.chain([(Way::Up, FEEDBACK_SAMPLE)]).collect()
}

/// The number in the bytes of a field.
fn number_in(message: &[u8], field: &Field) -> i64 {
    match (field.kind, &message[field.place..]) {
        (Kind::Byte, &[a, ..]) => a.into(),
        (Kind::SignedByte, &[a, ..]) => i8::from_le_bytes([a]).into(),
        (Kind::SignedFourBytes, &[a, b, c, d, ..]) => i32::from_le_bytes([a, b, c, d]).into(),
        _ => panic!("the message is shorter than its fields"),
    }
}

/// What reading gives for a message of type 81 or 82, by hand.
fn by_hand(way: Way, message: &[u8]) -> Result<Row, u64> {
    match message {
        [] => return Err(refusal(1, 0)),
        [0x80..=0xFF, ..] => return Err(refusal(2, 0)),
        [length, ..] if usize::from(*length) != message.len() || *length < 3 => return Err(refusal(3, 0)),
        [_, 1..=0xFF, ..] => return Err(refusal(4, 1)),
        _ => {}
    }
    match (message[2], way) {
        (0x81, Way::Down) => command_by_hand(message),
        (0x82, Way::Up) => feedback_by_hand(message),
        (0x81 | 0x82, _) => Err(OTHER_WAY),
        other => panic!("{other:?} is no type of this test"),
    }
}

fn command_by_hand(message: &[u8]) -> Result<Row, u64> {
    if message.len() < SUB_SIZE {
        return Err(size(SUB_SIZE));
    }
    let command = COMMANDS.iter().find(|command| command.sub == message[SUB]);
    let command = command.ok_or(field(SUB))?;
    if message.len() != command.size {
        return Err(size(command.size));
    }
    let mut row = [0; ROW_CELLS];
    row[0] = command.form;
    row[3] = command.fields.len() as u64;
    for (cell, it) in row[VALUES..].iter_mut().zip(command.fields) {
        let number = number_in(message, it);
        if !it.list.has(number) {
            return Err(field(it.place));
        }
        *cell = number as u64;
    }
    Ok(row)
}

fn feedback_by_hand(message: &[u8]) -> Result<Row, u64> {
    if message.len() < ONE_PAIR || message.len().is_multiple_of(2) {
        return Err(size(ONE_PAIR));
    }
    for place in (4..message.len()).step_by(2) {
        if message[place] > 31 {
            return Err(field(place));
        }
    }
    let mut row = [0; ROW_CELLS];
    row[..3].copy_from_slice(&[FEEDBACK, 3, message.len() as u64 - 3]);
    Ok(row)
}

/// What writing a row of one of the five forms gives, by hand.
fn written_by_hand(way: Way, row: &Row, open: &[u8], output: usize) -> Result<Vec<u8>, u64> {
    let message = match COMMANDS.iter().find(|command| command.form == row[0]) {
        Some(command) => command_written(command, way, &row[VALUES..], open)?,
        None => feedback_written(way, open)?,
    };
    if output < message.len() {
        return Err(NO_OUTPUT);
    }
    Ok(message)
}

fn command_written(command: &Command, way: Way, cells: &[u64], open: &[u8]) -> Result<Vec<u8>, u64> {
    if way == Way::Up {
        return Err(OTHER_WAY);
    }
    if cells[2] != u64::from(command.sub) {
        return Err(field(SUB));
    }
    if !open.is_empty() {
        return Err(size(command.size));
    }
    let mut message = vec![0; command.size];
    message[..3].copy_from_slice(&[command.size as u8, 0, 0x81]);
    let mut is_wide = false;
    for (&cell, it) in cells.iter().zip(command.fields) {
        if !it.list.has(cell as i64) {
            return Err(field(it.place));
        }
        is_wide |= !it.kind.holds(cell);
        let bytes = &cell.to_le_bytes()[..it.kind.width()];
        message[it.place..][..bytes.len()].copy_from_slice(bytes);
    }
    if is_wide {
        return Err(WIDE);
    }
    Ok(message)
}

fn feedback_written(way: Way, open: &[u8]) -> Result<Vec<u8>, u64> {
    if way == Way::Down {
        return Err(OTHER_WAY);
    }
    if open.is_empty() || open.len() % 2 == 1 || open.len() > MOST_OPEN {
        return Err(size(ONE_PAIR));
    }
    for (index, &byte) in open.iter().enumerate() {
        if index % 2 == 1 && byte > 31 {
            return Err(field(3 + index));
        }
    }
    Ok([&[3 + open.len() as u8, 0, 0x82], open].concat())
}

/// The same with what is written by hand.
#[track_caller]
fn expect_written_by_hand(given: &mut Given, way: Way, row: &Row, open: &[u8], output: usize) {
    let expected = written_by_hand(way, row, open, output);
    let expected = expected
        .as_ref()
        .map(|message| &message[..])
        .map_err(|&refusal| refusal);
    expect_written(given, way, row, open, output, expected);
}

/// The row of a message, with anything in the cells that writing has no use for.
fn row_of(message: &[u8]) -> Row {
    let way = if message[2] == 0x81 { Way::Down } else { Way::Up };
    let mut row = by_hand(way, message).expect("an accepted message");
    let used = VALUES + row[3] as usize;
    row[1..VALUES].fill(u64::MAX);
    row[used..].fill(0xA5A5_0000_0000_5A00);
    row
}

/// The rows of the samples by hand, so that the tables above are held to something too.
#[test]
fn rows_of_the_samples() {
    let minus = |number: i64| number.wrapping_neg() as u64;
    let rows: [&[u64]; 5] = [
        &[34, 0, 0, 9, 16, 17, 12, 360, 50, minus(50), 100, 126, 3],
        &[35, 0, 0, 8, 2, 16, 13, minus(3), 1, 99, 127, 2],
        &[36, 0, 0, 9, 16, 1, 14, 90, minus(90), 100, 0, 0, 1],
        &[37, 0, 0, 5, 16, 0, 20, minus(0x7EFD_FCFC), 0x7FFF_FFFF],
        &[38, 3, 6, 0],
    ];
    let mut given = Given::default();
    for ((way, message), start) in samples().into_iter().zip(rows) {
        let mut row = [0; ROW_CELLS];
        row[..start.len()].copy_from_slice(start);
        expect_read(&mut given, way, message, Ok(row));
        let open = if row[0] == FEEDBACK { &message[3..] } else { &[] };
        expect_written(&mut given, way, &row, open, TOO_LONG, Ok(message));
        expect_written(&mut given, way, &row_of(message), open, message.len(), Ok(message));
    }
    given.expect("rows of the samples", &[0]);
}

/// Every form in every size from 0 to 140, each way, with byte 0 as it was and as the size says. Some of the filling is
/// right as feedback, some isn't.
#[test]
fn every_size() {
    let mut given = Given::default();
    for (own, sample) in samples() {
        for size in 0..=TOO_LONG {
            for filling in [0x00, 0x1F, 0x20, 0xFF] {
                let mut message = sample.to_vec();
                message.resize(size, filling);
                for way in Way::BOTH {
                    expect_read(&mut given, way, &message, by_hand(way, &message));
                }
                if let Some(length) = message.first_mut() {
                    *length = size as u8;
                }
                // Once more without the definitions above.
                let expected = match (size, sample[2]) {
                    (0, _) => Some(refusal(1, 0)),
                    (1 | 2, _) => Some(refusal(3, 0)),
                    (128.., _) => Some(refusal(2, 0)),
                    (3..=5, 0x81) => Some(refusal(6, 6)),
                    (_, 0x81) if size != sample.len() => Some(refusal(6, sample.len())),
                    (3 | 4, 0x82) => Some(refusal(6, 5)),
                    (_, 0x82) if size % 2 == 0 => Some(refusal(6, 5)),
                    (11.., 0x82) if filling > 31 => Some(refusal(7, 10)),
                    _ => None,
                };
                assert_eq!(by_hand(own, &message).err(), expected, "{message:02X?}");
                for way in Way::BOTH {
                    expect_read(&mut given, way, &message, by_hand(way, &message));
                }
            }
        }
    }
    given.expect("every size", &[0, 1, 2, 3, 5, 6, 7]);
    assert_eq!(given.calls(), 5 * 141 * 4 * 2 * 2);
}

/// The bytes that a one-byte field may have, of all 256, and the place of its refusal.
#[test]
fn every_value_of_every_byte() {
    // Form, place, and how many bytes of 256 are accepted.
    let accepted: [(usize, &[(usize, u64)]); 4] = [
        (
            0,
            &[(3, 256), (4, 4), (10, 201), (11, 201), (12, 101), (13, 3), (14, 4)],
        ),
        (1, &[(3, 256), (4, 4), (10, 100), (11, 101), (12, 3), (13, 4)]),
        (2, &[(3, 256), (4, 4), (14, 100), (15, 101), (16, 3), (17, 4)]),
        (3, &[(3, 256), (4, 4), (6, 256), (9, 256), (10, 256), (13, 256)]),
    ];
    let mut given = Given::default();
    for (index, places) in accepted {
        for &(place, count) in places {
            let mut seen = 0;
            for value in 0..=255 {
                let mut message = COMMANDS[index].sample.to_vec();
                message[place] = value;
                let expected = by_hand(Way::Down, &message);
                assert!(expected.is_ok() || expected == Err(field(place)), "{message:02X?}");
                seen += u64::from(expected.is_ok());
                expect_read(&mut given, Way::Down, &message, expected);
            }
            assert_eq!(seen, count, "place {place} of {:02X}", COMMANDS[index].sub);
        }
    }
    // The start byte's own values, the end states, and both ends of the speeds.
    for (index, place, right, wrong) in [
        (
            3,
            4,
            &[0x00, 0x01, 0x10, 0x11][..],
            &[0x02, 0x0F, 0x12, 0x20, 0x21, 0xF0, 0xFF][..],
        ),
        (0, 10, &[0x64, 0x9C, 0x00, 0xFF], &[0x65, 0x9B, 0x7F, 0x80]),
        (0, 11, &[0x64, 0x9C, 0x00, 0xFF], &[0x65, 0x9B, 0x7F, 0x80]),
        (1, 10, &[1, 100], &[0, 101, 0xFF, 0x9C]),
        (2, 14, &[1, 100], &[0, 101, 0xFF, 0x9C]),
        (0, 13, &[0, 126, 127], &[1, 125, 128, 255]),
        (1, 12, &[0, 126, 127], &[1, 125, 128, 255]),
        (2, 16, &[0, 126, 127], &[1, 125, 128, 255]),
        (0, 14, &[0, 1, 2, 3], &[4, 255]),
        (1, 11, &[0, 100], &[101, 255]),
    ] {
        for (value, is_right) in right
            .iter()
            .map(|it| (it, true))
            .chain(wrong.iter().map(|it| (it, false)))
        {
            let mut message = COMMANDS[index].sample.to_vec();
            message[place] = *value;
            let expected = if is_right {
                Ok(by_hand(Way::Down, &message).expect("a right value"))
            } else {
                Err(field(place))
            };
            expect_read(&mut given, Way::Down, &message, expected);
        }
    }
    given.expect("every value of every byte", &[0, 7]);
}

/// Every sub in every size next to those of the commands, with a bad start byte too: the sub comes first, then the
/// size, then the start byte.
#[test]
fn every_sub() {
    let mut given = Given::default();
    let mut by_sub = [0; 4];
    for sub in 0..=255 {
        for size in [6, 7, 13, 14, 15, 16, 17, 18, 19, 127] {
            for start in [0x11, 0x22] {
                let mut message = vec![0; size];
                message[..SUB_SIZE].copy_from_slice(&[size as u8, 0, 0x81, 7, start, sub]);
                // Speeds of those that go to a position.
                for place in [10, 14] {
                    if let Some(byte) = message.get_mut(place) {
                        *byte = 1;
                    }
                }
                let expected = match (sub, size) {
                    (0x0C, 15) | (0x0D, 14) | (0x0E, 18) | (0x14, 14) if start == 0x22 => Err(field(4)),
                    (0x0C, 15) => Ok(0),
                    (0x0D, 14) => Ok(1),
                    (0x0E, 18) => Ok(2),
                    (0x14, 14) => Ok(3),
                    (0x0C, _) => Err(refusal(6, 15)),
                    (0x0D, _) => Err(refusal(6, 14)),
                    (0x0E, _) => Err(refusal(6, 18)),
                    (0x14, _) => Err(refusal(6, 14)),
                    _ => Err(field(SUB)),
                };
                let answer = by_hand(Way::Down, &message);
                assert_eq!(answer.map(|row| row[0]), expected.map(|index| 34 + index as u64));
                expect_read(&mut given, Way::Down, &message, answer);
                if let Ok(index) = expected {
                    by_sub[index] += 1;
                }
            }
        }
    }
    given.expect("every sub", &[0, 6, 7]);
    assert_eq!(by_sub, [1; 4]);
    assert_eq!(given.seen()[7], 252 * 10 * 2 + 4);
}

/// Degrees and positions at their edges.
#[test]
fn wide_fields() {
    let degrees: [(i32, bool); 12] = [
        (i32::MIN, false),
        (-10_000_000, false),
        (-256, false),
        (-1, false),
        (0, true),
        (1, true),
        (255, true),
        (65_536, true),
        (9_999_999, true),
        (10_000_000, true),
        (10_000_001, false),
        (i32::MAX, false),
    ];
    let mut given = Given::default();
    for (number, is_right) in degrees {
        let mut message = COMMANDS[0].sample.to_vec();
        message[6..10].copy_from_slice(&number.to_le_bytes());
        let mut row = by_hand(Way::Down, COMMANDS[0].sample).expect("the sample");
        row[7] = number as i64 as u64;
        let expected = if is_right { Ok(row) } else { Err(field(6)) };
        expect_read(&mut given, Way::Down, &message, expected);
        let written = if is_right { Ok(&message[..]) } else { Err(field(6)) };
        expect_written(&mut given, Way::Down, &row, b"", 15, written);
    }
    for (index, place, cell) in [(1, 6, 7), (2, 6, 7), (2, 10, 8), (3, 6, 7), (3, 10, 8)] {
        for number in [
            i32::MIN,
            i32::MIN + 1,
            -10_000_001,
            -256,
            -1,
            0,
            1,
            127,
            128,
            10_000_001,
            i32::MAX - 1,
            i32::MAX,
        ] {
            let mut message = COMMANDS[index].sample.to_vec();
            message[place..place + 4].copy_from_slice(&number.to_le_bytes());
            let mut row = by_hand(Way::Down, COMMANDS[index].sample).expect("the sample");
            row[cell] = number as i64 as u64;
            expect_read(&mut given, Way::Down, &message, Ok(row));
            expect_written(&mut given, Way::Down, &row, b"", message.len(), Ok(&message));
        }
    }
    given.expect("wide fields", &[0, 7]);
}

/// Every byte of every form replaced by every other, each way; only another type is left to the other tests.
#[test]
fn damage_of_every_byte() {
    let mut given = Given::default();
    for (_, sample) in samples() {
        for place in 0..sample.len() {
            for value in 0..=255 {
                let mut message = sample.to_vec();
                message[place] = value;
                if place == 2 && !matches!(value, 0x81 | 0x82) {
                    continue;
                }
                for way in Way::BOTH {
                    expect_read(&mut given, way, &message, by_hand(way, &message));
                }
            }
        }
    }
    given.expect("damage of every byte", &[0, 2, 3, 4, 5, 6, 7]);
}

/// Two fields outside their lists: the first of them is told, but a sub before all.
#[test]
fn damage_of_two_bytes() {
    let mut given = Given::default();
    for command in &COMMANDS {
        // A byte that is outside every list, at the last byte of each field that has one.
        let listed = command.fields.iter().filter(|it| !matches!(it.list, List::Any));
        let places: Vec<(usize, usize)> = listed.map(|it| (it.place, it.place + it.kind.width() - 1)).collect();
        for &(first, first_byte) in &places {
            for &(second, second_byte) in &places {
                let mut message = command.sample.to_vec();
                message[first_byte] = 0x80;
                message[second_byte] = 0x80;
                let told = if first == SUB || second == SUB {
                    SUB
                } else {
                    first.min(second)
                };
                expect_read(&mut given, Way::Down, &message, Err(field(told)));
            }
        }
    }
    for first in [4, 6, 8] {
        for second in [4, 6, 8] {
            let mut message = FEEDBACK_SAMPLE.to_vec();
            message[first] = 0x20;
            message[second] = 0x20;
            expect_read(&mut given, Way::Up, &message, Err(field(first.min(second))));
        }
    }
    given.expect("damage of two bytes", &[7]);
}

/// Pairs of every number, with every byte of feedback at every place.
#[test]
fn every_byte_of_feedback() {
    let mut given = Given::default();
    for pairs in (1..=6).chain([31, 61, 62]) {
        let mut message = vec![3 + 2 * pairs as u8, 0, 0x82];
        message.extend((0..pairs).flat_map(|pair| [0xFF - pair as u8, pair as u8 % 32]));
        for pair in 0..pairs {
            let place = 4 + 2 * pair;
            let right = message[place];
            for value in 0..=255 {
                message[place] = value;
                let expected = if value > 31 {
                    Err(field(place))
                } else {
                    let mut row = [0; ROW_CELLS];
                    row[..3].copy_from_slice(&[38, 3, 2 * pairs as u64]);
                    Ok(row)
                };
                expect_read(&mut given, Way::Up, &message, expected);
                let written = if value > 31 {
                    Err(field(place))
                } else {
                    Ok(&message[..])
                };
                let row = row_of(FEEDBACK_SAMPLE);
                expect_written(&mut given, Way::Up, &row, &message[3..], TOO_LONG, written);
            }
            message[place] = right;
        }
    }
    given.expect("every byte of feedback", &[0, 7]);
    let pairs = (1..=6).sum::<u64>() + 31 + 61 + 62;
    assert_eq!(given.seen()[7], pairs * 224 * 2);
}

/// Numbers for a cell: every one that a byte or a signed byte may have and those next to them, and the edges of wider
/// ones, some of which are right in their low bits.
fn numbers() -> Vec<u64> {
    let mut numbers: Vec<i64> = (-140..=300).collect();
    numbers.extend([
        510,
        511,
        512 + 1,
        65_535,
        65_536,
        65_536 + 100,
        9_999_999,
        10_000_000,
        10_000_001,
    ]);
    for power in [31, 32, 40, 48, 62] {
        let edge = 1_i64 << power;
        numbers.extend([
            edge - 1,
            edge,
            edge + 1,
            edge + 100,
            -edge - 1,
            -edge,
            1 - edge,
            50 - edge,
        ]);
    }
    numbers.extend([i64::MIN, i64::MIN + 1, i64::MIN + 100, i64::MAX]);
    numbers.into_iter().map(|number| number as u64).collect()
}

/// Each cell of each command with many numbers, each way, with open bytes and without, and with no output. A signed
/// number with a list is outside it where it is too wide; one without a list is no message's.
#[test]
fn writing_every_number() {
    let mut given = Given::default();
    let mut wide_but_listed = 0;
    for command in &COMMANDS {
        for (index, it) in command.fields.iter().enumerate() {
            for number in numbers() {
                let mut row = row_of(command.sample);
                row[VALUES + index] = number;
                for way in Way::BOTH {
                    for open in [&b""[..], b"\x00", b"\x00\x1F"] {
                        for output in [0, command.size - 1, command.size, TOO_LONG] {
                            expect_written_by_hand(&mut given, way, &row, open, output);
                        }
                    }
                }
                if !it.kind.holds(number) {
                    let expected = match (it.place, it.list) {
                        (3, _) | (_, List::Any) => WIDE,
                        (place, _) => field(place),
                    };
                    expect_written(&mut given, Way::Down, &row, b"", command.size, Err(expected));
                    wide_but_listed += u64::from(expected != WIDE && it.kind != Kind::Byte);
                }
            }
        }
    }
    given.expect("writing every number", &[0, 5, 6, 7, 8, 255]);
    println!("signed numbers with a list that are too wide: {wide_but_listed}");
    assert!(wide_but_listed > 500);
}

/// By hand, without the definitions above: wide numbers of 34 and of the positions of the others.
#[test]
fn wide_numbers() {
    let mut given = Given::default();
    let least = -0x8000_0000_i64;
    for (index, cell, number, expected) in [
        (0, 7, 1 << 31, field(6)),
        (0, 7, 1 << 32, field(6)),
        (0, 7, (1 << 32) + 360, field(6)),
        (0, 7, (least - 1) as u64, field(6)),
        (0, 7, 1 << 63, field(6)),
        (0, 8, 200, field(10)),
        (0, 8, 206, field(10)),
        (0, 8, 300, field(10)),
        (0, 8, -129_i64 as u64, field(10)),
        (0, 8, 256 + 50, field(10)),
        (0, 9, 255, field(11)),
        (0, 9, (1 << 32) - 50, field(11)),
        (0, 9, 1 << 63, field(11)),
        (0, 4, 300, WIDE),
        (1, 7, 1 << 31, WIDE),
        (1, 7, (least - 1) as u64, WIDE),
        (1, 7, (1 << 32) - 3, WIDE),
        (2, 7, 1 << 63, WIDE),
        (2, 8, 1 << 32, WIDE),
        (3, 7, u64::MAX >> 1, WIDE),
        (3, 8, 0xFFFF_FFFF, WIDE),
        (3, 5, 256 + 0x11, field(4)),
        (3, 6, 256 + 0x14, field(5)),
        (1, 8, 256 + 1, field(10)),
    ] {
        let command: &Command = &COMMANDS[index];
        let mut row = row_of(command.sample);
        row[cell] = number;
        for output in [0, command.size - 1, command.size, TOO_LONG] {
            expect_written(&mut given, Way::Down, &row, b"", output, Err(expected));
        }
    }
    // A field outside its list comes before a wider number to its left; a surplus slice before both, the sub first.
    let mut row = row_of(COMMANDS[0].sample);
    (row[4], row[12]) = (300, 4);
    expect_written(&mut given, Way::Down, &row, b"", 0, Err(field(14)));
    expect_written(&mut given, Way::Down, &row, b"x", 0, Err(size(15)));
    row[6] = 0x0D;
    expect_written(&mut given, Way::Down, &row, b"x", 0, Err(field(5)));
    expect_written(&mut given, Way::Up, &row, b"x", 0, Err(OTHER_WAY));
    given.expect("wide numbers", &[5, 6, 7, 255]);
}

/// Every number of open bytes from 0 to 140, with every output that is too short, that is not and that has more.
#[test]
fn every_number_of_open_bytes() {
    let mut given = Given::default();
    for count in 0..=TOO_LONG {
        let open: Vec<u8> = (0..count)
            .map(|index| [0xFF - index as u8, index as u8 % 32][index % 2])
            .collect();
        let is_right = count > 0 && count % 2 == 0 && count <= 124;
        let row = row_of(FEEDBACK_SAMPLE);
        let message = [&[3 + count as u8, 0, 0x82], &open[..]].concat();
        for output in 0..=TOO_LONG + 4 {
            let expected = match is_right {
                false => Err(size(5)),
                true if output < 3 + count => Err(NO_OUTPUT),
                true => Ok(&message[..]),
            };
            expect_written(&mut given, Way::Up, &row, &open, output, expected);
        }
        expect_written(&mut given, Way::Down, &row, &open, TOO_LONG, Err(OTHER_WAY));
        for command in &COMMANDS {
            let row = row_of(command.sample);
            for output in [0, command.size - 1, command.size, TOO_LONG] {
                let expected = match (count, output) {
                    (1.., _) => Err(size(command.size)),
                    (0, output) if output < command.size => Err(NO_OUTPUT),
                    (0, _) => Ok(command.sample),
                };
                expect_written(&mut given, Way::Down, &row, &open, output, expected);
                expect_written(&mut given, Way::Up, &row, &open, output, Err(OTHER_WAY));
            }
        }
    }
    // A bad byte doesn't matter where the number of bytes is wrong, and comes before the output.
    for count in 0..=TOO_LONG {
        let expected = if count > 0 && count % 2 == 0 && count <= 124 {
            field(4)
        } else {
            size(5)
        };
        let row = row_of(FEEDBACK_SAMPLE);
        expect_written(&mut given, Way::Up, &row, &vec![0xFF; count], 0, Err(expected));
    }
    given.expect("every number of open bytes", &[0, 5, 6, 7, 8]);
}

/// Every length of output for every command, and feedback over 31 at each place with none.
#[test]
fn every_length_of_output() {
    let mut given = Given::default();
    for command in &COMMANDS {
        for output in 0..=command.size + 8 {
            let expected = if output < command.size {
                Err(NO_OUTPUT)
            } else {
                Ok(command.sample)
            };
            expect_written(&mut given, Way::Down, &row_of(command.sample), b"", output, expected);
        }
    }
    for index in (1..124).step_by(2) {
        let mut open = vec![0x1F; 124];
        open[index] = 0x20;
        for output in [0, 3 + index, 126, 127, 140] {
            expect_written(
                &mut given,
                Way::Up,
                &row_of(FEEDBACK_SAMPLE),
                &open,
                output,
                Err(field(3 + index)),
            );
        }
        // The port may be any.
        open[index] = 0x1F;
        open[index - 1] = 0xFF;
        let message = [&[127, 0, 0x82], &open[..]].concat();
        expect_written(&mut given, Way::Up, &row_of(FEEDBACK_SAMPLE), &open, 127, Ok(&message));
    }
    given.expect("every length of output", &[0, 7, 8]);
}

/// A random message of one of the five forms that is accepted: most numbers are any of their lists, some at an end.
fn any_message(random: &mut Random) -> (Way, Vec<u8>) {
    if random.once_in(5) {
        let pairs = random.between(1, 62);
        let mut message = vec![3 + 2 * pairs as u8, 0, 0x82];
        message.extend((0..pairs).flat_map(|_| [random.byte(), random.byte() % 32]));
        return (Way::Up, message);
    }
    let command = &COMMANDS[random.below(4)];
    let mut message = command.sample.to_vec();
    for it in command.fields {
        let number = match it.list {
            List::Any => random.number() as i64 >> random.below(64),
            List::Range(least, most) => least + random.between(0, (most - least) as usize) as i64,
            List::Numbers(numbers) => random.one_of(numbers),
        };
        let bytes = &number.to_le_bytes()[..it.kind.width()];
        message[it.place..][..bytes.len()].copy_from_slice(bytes);
    }
    (Way::Down, message)
}

/// What was read is written, and what was written is read; the second program plays no part.
#[test]
fn round_trips() {
    let mut random = Random::new(51);
    let mut forms = [0; 5];
    for _ in 0..200_000 {
        let (way, message) = any_message(&mut random);
        let mut row = [0; ROW_CELLS];
        let answer = castanetash_read(&message, way_byte(way), &mut row);
        assert_eq!(answer, ROW_CELLS as u64, "{message:02X?}");
        assert_eq!(Ok(row), by_hand(way, &message), "{message:02X?}");
        let open = &message[row[1] as usize..][..row[2] as usize];
        let mut out = Lent::filled(message.len() + 2);
        let length = castanetash_write(&row, way_byte(way), open, out.lend());
        assert_eq!(length, message.len() as u64, "{message:02X?}");
        out.expect(&message, "a message that was read");
        let mut again = [0; ROW_CELLS];
        let written = &out.contents()[..message.len()];
        assert_eq!(castanetash_read(written, way_byte(way), &mut again), ROW_CELLS as u64);
        assert_eq!(again, row, "{message:02X?}");
        forms[row[0] as usize - 34] += 1;
    }
    println!("round trips by form: {forms:?}");
    assert!(forms.iter().all(|&trips| trips >= 30_000));
}

/// Random rows near to those of messages: what writing accepts is read back as it was.
#[test]
fn rows_that_are_written_are_read() {
    let mut random = Random::new(52);
    let mut given = Given::default();
    for _ in 0..200_000 {
        let (way, message) = any_message(&mut random);
        let mut row = row_of(&message);
        let mut open = if row[0] == FEEDBACK {
            message[3..].to_vec()
        } else {
            Vec::new()
        };
        let values = if row[0] == FEEDBACK {
            0
        } else {
            COMMANDS[row[0] as usize - 34].fields.len()
        };
        if values > 0 && random.once_in(2) {
            let cell = VALUES + random.below(values);
            row[cell] = match random.below(3) {
                0 => random.one_of(&[0, 1, 100, 101, 126, 127, 128, 255, 256, 300]),
                1 => row[cell].wrapping_add(random.one_of(&[1, u64::MAX, 256, 1 << 32])),
                _ => random.number() >> random.below(64),
            };
        }
        if row[0] == FEEDBACK && random.once_in(2) {
            let index = random.below(open.len());
            open[index] = random.byte();
        }
        let output = if random.once_in(8) {
            random.below(message.len())
        } else {
            TOO_LONG
        };
        let expected = written_by_hand(way, &row, &open, output);
        expect_written_by_hand(&mut given, way, &row, &open, output);
        if let Ok(message) = expected {
            let mut cells = row;
            cells[1..VALUES].copy_from_slice(&[0, 0, values as u64]);
            if !open.is_empty() {
                cells[1..VALUES - 1].copy_from_slice(&[3, open.len() as u64]);
            }
            cells[VALUES + values..].fill(0);
            expect_read(&mut Given::default(), way, &message, Ok(cells));
        }
    }
    given.expect("rows that are written are read", &[0, 7, 8, 255]);
    assert!(given.seen()[0] >= 50_000);
}

/// Ports 0 and 1 are joined by port 16, port 2 is alone, and port 200 is alone and in a mode with a format. All other
/// ports are absent.
const ENTRIES: [(Way, &[u8]); 8] = [
    (Way::Up, b"\x0F\x00\x04\x00\x01\x26\x00\x00\x00\x00\x10\x00\x00\x00\x10"),
    (Way::Up, b"\x0F\x00\x04\x01\x01\x26\x00\x00\x00\x00\x10\x00\x00\x00\x10"),
    (Way::Up, b"\x0F\x00\x04\x02\x01\x26\x00\x00\x00\x00\x10\x00\x00\x00\x10"),
    (Way::Up, b"\x0F\x00\x04\xC8\x01\x25\x00\x00\x00\x00\x10\x00\x00\x00\x10"),
    (Way::Up, b"\x09\x00\x04\x10\x02\x26\x00\x00\x01"),
    (Way::Up, b"\x0A\x00\x44\xC8\x02\x80\x01\x02\x04\x00"),
    (Way::Down, b"\x0A\x00\x41\xC8\x02\x01\x00\x00\x00\x01"),
    (Way::Up, b"\x0A\x00\x47\xC8\x02\x01\x00\x00\x00\x01"),
];
const PRESENT: [u8; 5] = [0, 1, 2, 16, 200];
const VIRTUAL: u8 = 16;

/// Both programs' tables and the reader without a table, after these entries.
struct Tables {
    product: LentTable,
    table: Table,
    list: MessageList,
    before: Vec<u32>,
}

impl Tables {
    fn after(entries: &[(Way, &[u8])]) -> Tables {
        let (mut product, mut table, mut list) = (LentTable::empty(), Table::default(), MessageList::default());
        for &(way, message) in entries {
            assert_eq!(product.offer(way, message, 301), 0, "{message:02X?}");
            assert_eq!(table.offer(way, message, 301), Ok(()), "{message:02X?}");
            assert_eq!(list.push(way, message, 301), Ok(()), "{message:02X?}");
        }
        let before = product.cells().to_vec();
        assert_eq!(table.to_cells(), before[..]);
        Tables {
            product,
            table,
            list,
            before,
        }
    }

    /// Offers a message with any experiment number: 0 for acceptance or a refusal. The table stays as it is. A dataset
    /// of it is 17 or that refusal.
    #[track_caller]
    fn expect(&mut self, given: &mut Given, way: Way, message: &[u8], expected: u64) {
        let name = || format!("{message:02X?} {way:?}");
        assert_eq!(self.product.offer(way, message, 302), expected, "{}", name());
        assert_eq!(self.product.cells(), self.before, "{}", name());
        let dataset = if expected == 0 { NO_DATASET } else { expected };
        for number in [0, 1, usize::MAX] {
            assert_eq!(self.product.dataset(way, message, number), Err(dataset), "{}", name());
        }
        assert_eq!(self.product.values(way, message), Err(dataset), "{}", name());
        assert_eq!(self.product.values_in(way, message, 0), Err(dataset), "{}", name());
        // So do those of the second program. The list would grow, so it is asked for a dataset alone.
        let offered = self.table.offer(way, message, 302).map_err(refused);
        assert_eq!(offered.err().unwrap_or(0), expected, "{}", name());
        assert_eq!(self.table.to_cells(), self.before[..], "{}", name());
        for answer in [
            self.table.hand_out(way, message, 0),
            self.list.hand_out(way, message, 0),
        ] {
            assert_eq!(answer.map_err(refused), Err(dataset), "{}", name());
        }
        given.count(&if expected == 0 { Ok(()) } else { Err(expected) });
    }
}

/// Every command to every port: 10 if it is absent, 22 for two motors to one that isn't virtual, a joined one too.
#[test]
fn commands_to_every_port() {
    let mut given = Given::default();
    for entries in [&ENTRIES[..0], &ENTRIES[..4], &ENTRIES] {
        let mut tables = Tables::after(entries);
        for command in &COMMANDS {
            for port in 0..=255 {
                let is_present = match entries.len() {
                    0 => false,
                    4 => [0, 1, 2, 200].contains(&port),
                    _ => PRESENT.contains(&port),
                };
                let expected = match (is_present, command.sub) {
                    (false, _) => ABSENT,
                    (true, 0x0D) => 0,
                    (true, _) if port == VIRTUAL => 0,
                    (true, _) => NOT_VIRTUAL,
                };
                let mut message = command.sample.to_vec();
                message[3] = port;
                tables.expect(&mut given, Way::Down, &message, expected);
                tables.expect(&mut given, Way::Up, &message, OTHER_WAY);
                // What reading refuses comes first, whatever the port is.
                message[4] = 0x02;
                tables.expect(&mut given, Way::Down, &message, field(4));
                message[5] = 0x0B;
                tables.expect(&mut given, Way::Down, &message, field(5));
                message[5] = command.sub;
                message.push(0);
                message[0] += 1;
                tables.expect(&mut given, Way::Down, &message, size(command.size));
            }
        }
    }
    given.expect("commands to every port", &[0, 5, 6, 7, 10, 22]);
    // 0D to four ports and to five, the others to one; and the others to four ports twice.
    assert_eq!(given.seen()[0], 4 + 5 + 3);
    assert_eq!(given.seen()[22], 3 * (4 + 4));
}

/// A port that was virtual and is attached again as another is no longer one, and the other way round.
#[test]
fn ports_that_change() {
    let mut given = Given::default();
    let detach: (Way, &[u8]) = (Way::Up, b"\x05\x00\x04\x10\x00");
    let attach: (Way, &[u8]) = (Way::Up, b"\x0F\x00\x04\x10\x01\x26\x00\x00\x00\x00\x10\x00\x00\x00\x10");
    let pull: (Way, &[u8]) = (Way::Up, b"\x05\x00\x04\x01\x00");
    let off: (Way, &[u8]) = (Way::Up, b"\x04\x00\x02\x30");
    let with = |more: &[(Way, &'static [u8])]| [&ENTRIES[..], more].concat();
    let go = &COMMANDS[2];
    for (entries, expected) in [
        (with(&[]), 0),
        (with(&[detach]), ABSENT),
        (with(&[detach, attach]), NOT_VIRTUAL),
        (with(&[detach, attach, detach, ENTRIES[4]]), 0),
        (with(&[pull]), ABSENT),
        (with(&[off]), ABSENT),
    ] {
        let mut tables = Tables::after(&entries);
        let feedback = if expected == NOT_VIRTUAL { 0 } else { expected };
        for (index, port_0) in [(0, NOT_VIRTUAL), (1, 0), (2, NOT_VIRTUAL), (3, NOT_VIRTUAL)] {
            let mut message = COMMANDS[index].sample.to_vec();
            message[3] = VIRTUAL;
            let to_any = COMMANDS[index].sub == 0x0D;
            tables.expect(
                &mut given,
                Way::Down,
                &message,
                if to_any { feedback } else { expected },
            );
            message[3] = 0;
            let is_off = entries.last() == Some(&off);
            tables.expect(&mut given, Way::Down, &message, if is_off { ABSENT } else { port_0 });
        }
        assert_eq!(go.sample[3], VIRTUAL);
        tables.expect(&mut given, Way::Up, b"\x05\x00\x82\x10\x0A", feedback);
    }
    given.expect("ports that change", &[0, 10, 22]);
}

/// Feedback about 1 to 62 ports that are present, with an absent one at each place, and with bits that are none, which
/// come before any port.
#[test]
fn feedback_about_every_port() {
    let mut given = Given::default();
    let mut tables = Tables::after(&ENTRIES);
    for pairs in 1..=62 {
        let mut message = vec![3 + 2 * pairs as u8, 0, 0x82];
        message.extend((0..pairs).flat_map(|pair| [PRESENT[pair % 5], pair as u8 % 32]));
        tables.expect(&mut given, Way::Up, &message, 0);
        tables.expect(&mut given, Way::Down, &message, OTHER_WAY);
        for pair in 0..pairs {
            let mut absent = message.clone();
            absent[3 + 2 * pair] = 99;
            tables.expect(&mut given, Way::Up, &absent, ABSENT);
            for bad in [0, pairs / 2, pairs - 1] {
                let mut both = absent.clone();
                both[4 + 2 * bad] = 0x20;
                tables.expect(&mut given, Way::Up, &both, field(4 + 2 * bad));
            }
        }
        message.push(0);
        message[0] += 1;
        if message.len() <= LONGEST {
            tables.expect(&mut given, Way::Up, &message, size(5));
        }
    }
    // Each port alone, and after one that is present.
    for port in 0..=255 {
        let expected = if PRESENT.contains(&port) { 0 } else { ABSENT };
        tables.expect(&mut given, Way::Up, &[5, 0, 0x82, port, 0x1F], expected);
        tables.expect(&mut given, Way::Up, &[7, 0, 0x82, 2, 0, port, 0x1F], expected);
        tables.expect(&mut given, Way::Up, &[7, 0, 0x82, port, 0, 2, 0x1F], expected);
        tables.expect(&mut given, Way::Up, &[7, 0, 0x82, port, 0, 2, 0x20], field(6));
    }
    given.expect("feedback about every port", &[0, 5, 6, 7, 10]);
    assert_eq!(given.seen()[0], 62 + 5 * 3);
    assert_eq!(given.seen()[10], (1..=62).sum::<u64>() + 251 * 3);
}

/// The lines of commands and feedback are their numbers and refusals: by the product's call, by its log reader and by
/// the second program. The value's experiment number is that of the 41.
#[test]
fn lines() {
    let sent: [(Way, &[u8], &str); 14] = [
        (Way::Down, COMMANDS[0].sample, "0"),
        (Way::Down, COMMANDS[1].sample, "0"),
        (Way::Down, COMMANDS[2].sample, "0"),
        (Way::Down, COMMANDS[3].sample, "0"),
        (
            Way::Down,
            b"\x0E\x00\x81\x00\x11\x14\x00\x00\x00\x00\x00\x00\x00\x00",
            "22",
        ),
        (
            Way::Down,
            b"\x0E\x00\x81\xC8\x11\x14\x00\x00\x00\x00\x00\x00\x00\x00",
            "22",
        ),
        (
            Way::Down,
            b"\x0E\x00\x81\x63\x11\x14\x00\x00\x00\x00\x00\x00\x00\x00",
            "10",
        ),
        (
            Way::Down,
            b"\x0E\x00\x81\x63\x12\x14\x00\x00\x00\x00\x00\x00\x00\x00",
            "7",
        ),
        (Way::Down, b"\x05\x00\x81\x10\x11", "6"),
        (Way::Up, FEEDBACK_SAMPLE, "0"),
        (Way::Up, b"\x07\x00\x82\x10\x0A\x63\x0A", "10"),
        (Way::Up, b"\x07\x00\x82\x63\x0A\x10\x20", "7"),
        (Way::Up, b"\x06\x00\x82\x10\x0A\x00", "6"),
        (Way::Up, b"\x08\x00\x45\xC8\xFD\xFF\xFF\xFF", "0 200 2 2 301 -3"),
    ];
    let start = ENTRIES.map(|(way, message)| (way, message, "0"));
    let mut log = Vec::new();
    let mut lines = String::new();
    for (index, (way, message, answer)) in start.into_iter().chain(sent).enumerate() {
        // The number of the 41 is 301.
        let experiment = if message[2] == 0x41 { 301 } else { 302 + index as u16 };
        log.extend(log_record(index as u32, way, message, experiment));
        lines += &format!("{} {answer}\n", index + 1);
    }
    let (mut table, mut totals) = (Lent::holding(&[0; TABLE_CELLS]), Lent::holding(&[0, 0]));
    let mut text = Lent::filled(lines.len() + LINE_ROOM);
    let answer = castanetash_read_block(table.lend(), totals.lend(), &log, text.lend());
    assert_eq!(answer, lines.len() as u64);
    text.expect(lines.as_bytes(), "lines of commands and feedback");
    totals.expect(&[22, 8], "totals of commands and feedback");
    assert_eq!(
        table.contents(),
        Tables::after(&ENTRIES).before,
        "the table of the entries alone"
    );

    let whole = lines + "total 22 refused 8\n";
    let mut by_second = Vec::new();
    read_log(&log[..], &mut by_second).expect("reading from memory");
    assert_eq!(String::from_utf8_lossy(&by_second), whole);
    let by_program = printed(&log);
    assert_eq!(String::from_utf8_lossy(&by_program.stdout), whole);
    assert!(by_program.stderr.is_empty());
}

/// Lists of random messages, with commands and feedback among them. How often each of the five forms is accepted, and
/// refused for its ports.
#[test]
fn lists_of_messages() {
    let mut tally = TableTally::default();
    let mut seen = [[0_u64; 3]; 5];
    for seed in 0..60 {
        let mut traffic = Traffic::new(
            7000 + seed,
            [Scene::Pairs, Scene::Mixed, Scene::Crowd][seed as usize % 3],
        );
        let mut trio = Trio::default();
        for _ in 0..300 {
            let (way, message, experiment) = traffic.next(trio.table());
            let form = decode(way, &message).map_or(0, |it| usize::from(it.form.number()));
            if (34..=38).contains(&form) {
                let answer = trio.table().clone().offer(way, &message, experiment);
                let column = match answer.map_err(|refusal| refusal.number) {
                    Ok(()) => 0,
                    Err(10) => 1,
                    Err(22) => 2,
                    Err(other) => panic!("{other} to {message:02X?}"),
                };
                seen[form - 34][column] += 1;
                trio.hand_out(&mut tally, way, &message, 0);
                trio.hand_out_all(&mut tally, way, &message);
            }
            let touched = trio.offer(&mut tally, way, &message, experiment);
            trio.compare_ports(&mut tally, touched);
        }
    }
    println!("commands and feedback in lists, accepted, 10 and 22: {seen:?}\n{tally}");
    for (form, counts) in seen.into_iter().enumerate() {
        // One motor, and feedback, are never refused with 22.
        let can_get = [true, true, form != 1 && form != 4];
        for (count, can_get) in counts.into_iter().zip(can_get) {
            assert_eq!(count >= 30, can_get, "{seen:?}");
        }
    }
}
