//! The types of the memory lock, 11, 12 and 13: they are read as ever, by every path, and writing them is refused with
//! 23. All answers are written out by hand.

use differential::{
    castanetash_read, castanetash_read_block, castanetash_write, printed, refused, way_byte, Lent, LentTable, Random,
    ROW_CELLS,
};
use yardstick::{log_record, read_log, write_row, MessageList, Row, Table, Way, LINE_ROOM, TABLE_CELLS};

/// An answer that refuses.
const fn refusal(number: u64, place: u64) -> u64 {
    number << 32 | place
}

/// The answers: the type is only read, doesn't go this way, or the row is none.
const ONLY_READ: u64 = refusal(23, 0);
const OTHER_WAY: u64 = refusal(5, 2);
const NO_ROW: u64 = refusal(255, 0);

/// The three forms by their numbers, each with the way that its type goes: 11, 12 and 13.
const LOCK_MEMORY: u64 = 16;
const LOCK_STATUS_REQUEST: u64 = 17;
const LOCK_STATUS: u64 = 18;
const RETIRED: [(u64, Way); 3] = [
    (LOCK_MEMORY, Way::Down),
    (LOCK_STATUS_REQUEST, Way::Down),
    (LOCK_STATUS, Way::Up),
];

/// The answer to writing a form that goes `own` to a way.
fn answer(own: Way, way: Way) -> u64 {
    if own == way {
        ONLY_READ
    } else {
        OTHER_WAY
    }
}

/// Numbers for the value of a 13, and for the first cell after the count of the others, which have none.
const STATUSES: [u64; 5] = [0, 255, 256, 300, u64::MAX];

/// A row of a form with this as its first value. The other cells hold anything.
fn row(form: u64, value: u64) -> Row {
    let mut row = [0xA5A5_0000_0000_5A00; ROW_CELLS];
    row[0] = form;
    row[4] = value;
    row
}

/// Lengths of open bytes: every one up to more than a message has room for, and odd ones beyond, some of which are
/// small in their low bits.
fn open_lengths() -> impl Iterator<Item = usize> {
    let beyond = [255, 256, 257, 999, 4099, 65_535, 65_536, 65_539, 131_073];
    (0..=130).chain(beyond)
}

/// Open bytes of a length, neighbours different from each other.
fn open(length: usize) -> Vec<u8> {
    (0..length).map(|place| (place * 89 + 7) as u8).collect()
}

/// Writes a row by both programs, each with an output that holds a pattern. Both have to refuse as expected, and
/// nothing that is lent may change.
#[track_caller]
fn expect_refused(row: &mut Lent<u64>, way: Way, open: &mut Lent<u8>, output: usize, expected: u64) {
    let name = format!(
        "{:X?} {way:?}, {} open bytes, {output} bytes of output",
        row.contents(),
        open.contents().len()
    );
    let mut lent = Lent::<u8>::filled(output);
    let answer = castanetash_write(row.lend(), way_byte(way), open.lend(), lent.lend());
    assert_eq!(
        [answer >> 32, answer & 0xFFFF_FFFF],
        [expected >> 32, expected & 0xFFFF_FFFF],
        "{name}"
    );
    row.expect_unchanged(&name);
    open.expect_unchanged(&name);
    lent.expect_unchanged(&name);
    let by_second = write_row(way, row.contents(), open.contents(), lent.lend());
    assert_eq!(by_second.map_err(refused), Err(expected), "{name}, second program");
    lent.expect_unchanged(&name);
}

/// Whatever the open bytes, the output and the numbers of the row are: 23 at 0, the other way 5 at 2.
#[test]
fn writing_is_refused_before_all_else() {
    let mut calls = 0;
    for (form, own) in RETIRED {
        for length in open_lengths() {
            let mut open = Lent::holding(&open(length));
            for status in STATUSES {
                let mut row = Lent::holding(&row(form, status));
                for way in Way::BOTH {
                    for output in 0..=140 {
                        expect_refused(&mut row, way, &mut open, output, answer(own, way));
                        calls += 1;
                    }
                }
            }
        }
    }
    println!("writing 11, 12 and 13: {calls} calls");
    assert_eq!(calls, 3 * (131 + 9) * 5 * 2 * 141);
}

/// Any numbers in all cells but the form's, and more cells than a row has.
#[test]
fn no_other_cell_is_looked_at() {
    let mut random = Random::new(31);
    let mut calls = 0;
    for (form, own) in RETIRED {
        for turn in 0..2000 {
            let mut cells = vec![0; ROW_CELLS + turn % 4];
            cells.fill_with(|| random.number() >> random.below(64));
            cells[0] = form;
            let mut row = Lent::holding(&cells);
            let mut open = Lent::holding(&open(random.one_of(&[0, 0, 1, 8, 124])));
            for way in Way::BOTH {
                for output in [0, 2, 3, 4, 11, 130] {
                    expect_refused(&mut row, way, &mut open, output, answer(own, way));
                    calls += 1;
                }
            }
        }
    }
    println!("writing 11, 12 and 13 with any cells: {calls} calls");
    assert_eq!(calls, 3 * 2000 * 2 * 6);
}

/// A row that is too short, or whose form is wider than its number, holds no message that could be judged.
#[test]
fn a_row_that_is_none_comes_first() {
    let mut calls = 0;
    for (form, _) in RETIRED {
        for status in STATUSES {
            let short = (0..ROW_CELLS).map(|length| row(form, status)[..length].to_vec());
            let wide = [8, 9, 16, 32, 63].map(|bit| row(1 << bit | form, status).to_vec());
            for cells in short.chain(wide) {
                let mut row = Lent::holding(&cells);
                for length in [0, 1, 8, 130] {
                    let mut open = Lent::holding(&open(length));
                    for way in Way::BOTH {
                        for output in [0, 3, 4, 11, 130] {
                            expect_refused(&mut row, way, &mut open, output, NO_ROW);
                            calls += 1;
                        }
                    }
                }
            }
        }
    }
    println!("rows that are none: {calls} calls");
    assert_eq!(calls, 3 * 5 * (16 + 5) * 4 * 2 * 5);
}

/// The types next to them are written: 05, 10 and 21.
#[test]
fn types_nearby_are_written() {
    let cases: [(Way, u64, [u64; 2], &[u8]); 3] = [
        (Way::Up, 14, [0x41, 5], b"\x05\x00\x05\x41\x05"),
        (Way::Down, 15, [300, 300], b"\x0C\x00\x10LPF2-Boot"),
        (Way::Down, 19, [3, 2], b"\x05\x00\x21\x03\x02"),
    ];
    let mut calls = 0;
    for (way, form, values, message) in cases {
        let mut cells = row(form, values[0]);
        cells[5] = values[1];
        for length in open_lengths() {
            let open = open(length);
            for output in 0..=140 {
                let name = format!("form {form}, {length} open bytes, {output} bytes of output");
                let (expected, written) = match (length, output) {
                    (1.., _) => (refusal(6, message.len() as u64), &[][..]),
                    (0, output) if output < message.len() => (refusal(8, 0), &[][..]),
                    _ => (message.len() as u64, message),
                };
                let mut lent = Lent::<u8>::filled(output);
                let answer = castanetash_write(&cells, way_byte(way), &open, lent.lend());
                assert_eq!(answer, expected, "{name}");
                lent.expect(written, &name);
                calls += 1;
            }
        }
    }
    println!("writing 05, 10 and 21: {calls} calls");
    assert_eq!(calls, 3 * (131 + 9) * 141);
}

/// Messages of 11, 12 and 13 in every size from 3 to 13, with any byte as the status and as the filling, and what
/// reading them has to give: the row, or the refusal.
fn messages() -> Vec<(Way, Vec<u8>, Result<Row, u64>)> {
    let row = |form: u64, count: u64, value: u64| {
        let mut row = [0; ROW_CELLS];
        [row[0], row[3], row[4]] = [form, count, value];
        row
    };
    let mut messages = Vec::new();
    for size in 3..=13 {
        for byte in 0..=255 {
            let resized = |start: &[u8]| {
                let mut message = start.to_vec();
                message.resize(size, byte);
                message[0] = size as u8;
                message
            };
            let answer_of = |right: usize, row: Row| {
                if size == right {
                    Ok(row)
                } else {
                    Err(refusal(6, right as u64))
                }
            };
            for (own, message, answer) in [
                (
                    Way::Down,
                    resized(b"\x0B\x00\x11Lock Mem"),
                    answer_of(11, row(LOCK_MEMORY, 0, 0)),
                ),
                (
                    Way::Down,
                    resized(b"\x03\x00\x12"),
                    answer_of(3, row(LOCK_STATUS_REQUEST, 0, 0)),
                ),
                (
                    Way::Up,
                    resized(b"\x04\x00\x13"),
                    answer_of(4, row(LOCK_STATUS, 1, byte.into())),
                ),
            ] {
                for way in Way::BOTH {
                    let answer = if way == own { answer } else { Err(OTHER_WAY) };
                    messages.push((way, message.clone(), answer));
                }
            }
        }
    }
    // 11 with another byte at each place of its string.
    for place in 3..11 {
        for byte in 0..=255 {
            let mut message = b"\x0B\x00\x11Lock Mem".to_vec();
            let answer = if message[place] == byte {
                Ok(row(LOCK_MEMORY, 0, 0))
            } else {
                Err(refusal(7, place as u64))
            };
            message[place] = byte;
            messages.push((Way::Down, message, answer));
        }
    }
    assert_eq!(messages.len(), 11 * 256 * 3 * 2 + 8 * 256);
    messages
}

/// Those of them that are accepted, with their rows.
fn accepted() -> Vec<(Way, Vec<u8>, Row)> {
    let accepted: Vec<_> = messages()
        .into_iter()
        .filter_map(|(way, message, answer)| Some((way, message, answer.ok()?)))
        .collect();
    // A 12 and an 11 for every filling, which they don't have, a 13 for every status, and the string as it is.
    assert_eq!(accepted.len(), 256 + 256 + 256 + 8);
    accepted
}

/// Reading gives what it gave.
#[test]
fn reading_stands() {
    let [mut rows, mut refusals] = [0, 0];
    for (way, message, expected) in messages() {
        let name = format!("{message:02X?} {way:?}");
        let (mut message, mut row) = (Lent::holding(&message), Lent::filled(ROW_CELLS + 2));
        let answer = castanetash_read(message.lend(), way_byte(way), row.lend());
        message.expect_unchanged(&name);
        match expected {
            Ok(cells) => {
                assert_eq!(answer, ROW_CELLS as u64, "{name}");
                row.expect(&cells, &name);
                rows += 1;
            }
            Err(refusal) => {
                assert_eq!(answer, refusal, "{name}");
                row.expect_unchanged(&name);
                refusals += 1;
            }
        }
    }
    println!("reading 11, 12 and 13: {rows} rows, {refusals} refusals");
    assert_eq!([rows, refusals], [776, 11 * 256 * 3 * 2 + 8 * 256 - 776]);
}

/// The row that reading gives is refused by writing, with the message's own bytes or others as the open bytes.
#[test]
fn what_was_read_is_not_written() {
    let mut calls = 0;
    for (way, message, _) in accepted() {
        let mut cells = [0; ROW_CELLS];
        let answer = castanetash_read(&message, way_byte(way), &mut cells);
        assert_eq!(answer, ROW_CELLS as u64, "{message:02X?} {way:?}");
        let mut row = Lent::holding(&cells);
        for open in [&b""[..], b"x", &message[3..], &message] {
            let mut open = Lent::holding(open);
            for output in (0..=16).chain([127, 128]) {
                for (to, expected) in Way::BOTH.map(|to| (to, self::answer(way, to))) {
                    expect_refused(&mut row, to, &mut open, output, expected);
                    calls += 1;
                }
            }
        }
    }
    println!("writing what was read: {calls} calls");
    assert_eq!(calls, 776 * 4 * 19 * 2);
}

/// Messages that make a table in which port 0 sends values, port 1 is bare, and port 16 joins ports 2 and 3.
const ENTRIES: [(Way, &[u8]); 8] = [
    (Way::Up, b"\x0F\x00\x04\x00\x01\x26\x00\x00\x00\x00\x10\x00\x00\x00\x10"),
    (Way::Up, b"\x0F\x00\x04\x01\x01\x26\x00\x00\x00\x00\x10\x00\x00\x00\x10"),
    (Way::Up, b"\x0F\x00\x04\x02\x01\x26\x00\x00\x00\x00\x10\x00\x00\x00\x10"),
    (Way::Up, b"\x0F\x00\x04\x03\x01\x26\x00\x00\x00\x00\x10\x00\x00\x00\x10"),
    (Way::Up, b"\x09\x00\x04\x10\x02\x26\x00\x02\x03"),
    (Way::Up, b"\x0A\x00\x44\x00\x02\x80\x01\x02\x04\x00"),
    (Way::Down, b"\x0A\x00\x41\x00\x02\x01\x00\x00\x00\x01"),
    (Way::Up, b"\x0A\x00\x47\x00\x02\x01\x00\x00\x00\x01"),
];

/// A table accepts them and stays as it is, and they have no dataset; by both programs, with a table and without.
#[test]
fn tables_accept_them() {
    const NO_DATASET: u64 = refusal(17, 0);
    let mut calls = 0;
    for entries in [&ENTRIES[..0], &ENTRIES] {
        let (mut product, mut table, mut list) = (LentTable::empty(), Table::default(), MessageList::default());
        for &(way, message) in entries {
            assert_eq!(product.offer(way, message, 301), 0, "{message:02X?}");
            assert_eq!(table.offer(way, message, 301), Ok(()), "{message:02X?}");
            assert_eq!(list.push(way, message, 301), Ok(()), "{message:02X?}");
        }
        let before = product.cells().to_vec();
        for (way, message, _) in accepted() {
            let name = format!("{message:02X?} {way:?} after {} messages", entries.len());
            assert_eq!(product.offer(way, &message, 302), 0, "{name}");
            assert_eq!(product.cells(), before, "{name}");
            assert_eq!(product.dataset(way, &message, 0), Err(NO_DATASET), "{name}");
            assert_eq!(product.values(way, &message), Err(NO_DATASET), "{name}");
            calls += 3;
            assert_eq!(table.offer(way, &message, 302), Ok(()), "{name}");
            assert_eq!(list.push(way, &message, 302), Ok(()), "{name}");
        }
        assert_eq!(table.to_cells(), before[..]);
    }
    println!("11, 12 and 13 offered to tables: {calls} calls");
    assert_eq!(calls, 2 * 776 * 3);
}

/// The line of a record is its number and 0, as it was: by the product's call, by its log reader, and by the second
/// program.
#[test]
fn logs_print_them_as_before() {
    let messages = accepted();
    let records = |(way, message, _): &(Way, Vec<u8>, Row)| log_record(0, *way, message, 302);
    let log: Vec<u8> = messages.iter().flat_map(records).collect();
    let lines: String = (1..=messages.len()).map(|line| format!("{line} 0\n")).collect();

    let (mut table, mut totals) = (Lent::holding(&[0; TABLE_CELLS]), Lent::holding(&[0, 0]));
    // The last line has to have room for any.
    let mut text = Lent::filled(lines.len() + LINE_ROOM);
    let answer = castanetash_read_block(table.lend(), totals.lend(), &log, text.lend());
    assert_eq!(answer, lines.len() as u64);
    text.expect(lines.as_bytes(), "lines of 11, 12 and 13");
    totals.expect(&[776, 0], "totals of 11, 12 and 13");
    table.expect_unchanged("a table to which 11, 12 and 13 are offered");

    let whole = lines + "total 776 refused 0\n";
    let mut by_second = Vec::new();
    read_log(&log[..], &mut by_second).expect("reading from memory");
    assert_eq!(String::from_utf8_lossy(&by_second), whole);
    let by_program = printed(&log);
    assert_eq!(String::from_utf8_lossy(&by_program.stdout), whole);
    assert!(by_program.stderr.is_empty());
    println!("{} lines of 11, 12 and 13", messages.len());
}
