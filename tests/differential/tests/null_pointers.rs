//! A null pointer with the length 0 is an empty slice, for every slice of every function. All answers are written out by
//! hand. What is lent beside it is as it was.

#![allow(unsafe_code)]

use std::ptr;

use differential::castanetash::raw;
use differential::{Filling, Lent, DATASET_CELLS, FORMAT_CELLS, PORT_CELLS, ROW_CELLS};
use yardstick::examples::bytes;
use yardstick::{log_record, Table, Way, LOG_RECORD, TABLE_CELLS};

const DOWN: u8 = 0;
const UP: u8 = 1;

/// An answer that refuses.
const fn refusal(number: u64, place: u64) -> u64 {
    number << 32 | place
}

const UNREAD: u64 = refusal(1, 0);
const NO_ROOM: u64 = refusal(8, 0);
const NOT_SOUND: u64 = refusal(9, 0);
const ONLY_READ: u64 = refusal(23, 0);
const BAD_ROW: u64 = refusal(255, 0);

/// A slice that is lent, or none: then the pointer is null.
struct Slice<T>(Option<Lent<T>>);

impl<T: Filling> Slice<T> {
    const NULL: Slice<T> = Slice(None);

    fn of(contents: &[T]) -> Slice<T> {
        Slice(Some(Lent::holding(contents)))
    }

    fn filled(length: usize) -> Slice<T> {
        Slice(Some(Lent::filled(length)))
    }

    fn pointer(&mut self) -> *mut T {
        match &mut self.0 {
            Some(lent) => lent.lend().as_mut_ptr(),
            None => ptr::null_mut(),
        }
    }

    fn length(&self) -> usize {
        self.0.as_ref().map_or(0, |lent| lent.contents().len())
    }

    /// Panics unless it starts with `written`, and all else is as it was.
    #[track_caller]
    fn expect(&self, written: &[T]) {
        match &self.0 {
            Some(lent) => lent.expect(written, "what is lent"),
            None => assert!(written.is_empty(), "nothing can be written there"),
        }
    }
}

/// A table with port 0, which sends one number of 8 bits.
fn table() -> [u32; TABLE_CELLS] {
    let mut table = Table::default();
    for message in [
        "0F 00 04 00 01 26 00 00 00 00 10 00 00 00 10",
        "0A 00 44 00 02 80 01 00 03 00",
        "0A 00 47 00 02 01 00 00 00 01",
    ] {
        assert_eq!(table.offer(Way::Up, &bytes(message), 0), Ok(()), "{message}");
    }
    table.to_cells()
}

/// A value of port 0, and its dataset: -3 in mode 2, which nobody asked for.
const VALUE: [u8; 5] = [0x05, 0x00, 0x45, 0x00, 0xFD];
const DATASET: [u64; DATASET_CELLS] = [0, -3_i64 as u64, 0, 2, 0, 0];

/// A message without values that is only read, and its row.
const REQUEST: [u8; 3] = [0x03, 0x00, 0x12];
const REQUEST_ROW: [u64; ROW_CELLS] = [17, 0, 0, 0, 0, 0, 0, 0, 0, 0, 0, 0, 0, 0, 0, 0];

/// A message without values that is written too, and its row.
const BOOT: [u8; 12] = *b"\x0C\x00\x10LPF2-Boot";
const BOOT_ROW: [u64; ROW_CELLS] = [15, 0, 0, 0, 0, 0, 0, 0, 0, 0, 0, 0, 0, 0, 0, 0];

#[test]
fn read() {
    #[track_caller]
    fn expect(mut message: Slice<u8>, mut row: Slice<u64>, expected: u64, written: &[u64]) {
        // SAFETY: each pointer is that of so many places, or null with the length 0.
        let answer =
            unsafe { raw::castanetash_read(message.pointer(), message.length(), DOWN, row.pointer(), row.length()) };
        assert_eq!(answer, expected);
        message.expect(&[]);
        row.expect(written);
    }
    let row = || Slice::filled(ROW_CELLS + 2);
    expect(Slice::of(&REQUEST), row(), ROW_CELLS as u64, &REQUEST_ROW);
    expect(Slice::of(&BOOT), row(), ROW_CELLS as u64, &BOOT_ROW);
    expect(Slice::NULL, row(), UNREAD, &[]);
    expect(Slice::of(&REQUEST), Slice::NULL, BAD_ROW, &[]);
    expect(Slice::NULL, Slice::NULL, UNREAD, &[]);
}

#[test]
fn write() {
    #[track_caller]
    fn expect(mut row: Slice<u64>, mut open: Slice<u8>, mut out: Slice<u8>, expected: u64, written: &[u8]) {
        // SAFETY: each pointer is that of so many places, or null with the length 0.
        let answer = unsafe {
            raw::castanetash_write(
                row.pointer(),
                row.length(),
                DOWN,
                open.pointer(),
                open.length(),
                out.pointer(),
                out.length(),
            )
        };
        assert_eq!(answer, expected);
        row.expect(&[]);
        open.expect(&[]);
        out.expect(written);
    }
    let row = || Slice::of(&BOOT_ROW);
    let only_read = || Slice::of(&REQUEST_ROW);
    // A text, property 1 with operation 1.
    let mut cells = [0; ROW_CELLS];
    cells[0] = 2;
    cells[4..6].copy_from_slice(&[1, 1]);
    let text = || Slice::of(&cells);
    let out = || Slice::filled(20);
    expect(row(), Slice::of(&[]), out(), 12, &BOOT);
    expect(row(), Slice::NULL, out(), 12, &BOOT);
    expect(Slice::NULL, Slice::of(b"x"), out(), BAD_ROW, &[]);
    expect(text(), Slice::of(b"x"), out(), 6, &[0x06, 0x00, 0x01, 0x01, 0x01, b'x']);
    // Six bytes were wanted: one of a text.
    expect(text(), Slice::NULL, out(), refusal(6, 6), &[]);
    expect(row(), Slice::of(&[]), Slice::NULL, NO_ROOM, &[]);
    expect(row(), Slice::NULL, Slice::NULL, NO_ROOM, &[]);
    expect(text(), Slice::of(b"x"), Slice::NULL, NO_ROOM, &[]);
    // What is only read is refused before the open bytes and the output.
    for open in [|| Slice::NULL, || Slice::of(&[]), || Slice::of(b"x")] {
        expect(only_read(), open(), out(), ONLY_READ, &[]);
        expect(only_read(), open(), Slice::NULL, ONLY_READ, &[]);
    }
    expect(Slice::NULL, Slice::NULL, Slice::NULL, BAD_ROW, &[]);
}

#[test]
fn empty() {
    // SAFETY: the pointer is null with the length 0.
    let answer = unsafe { raw::castanetash_empty(ptr::null_mut(), 0) };
    assert_eq!(answer, NOT_SOUND);
}

#[test]
fn offer() {
    #[track_caller]
    fn expect(mut table: Slice<u32>, mut message: Slice<u8>, way: u8, expected: u64, after: &[u32]) {
        // SAFETY: each pointer is that of so many places, or null with the length 0.
        let answer = unsafe {
            raw::castanetash_offer(
                table.pointer(),
                table.length(),
                message.pointer(),
                message.length(),
                way,
                7,
            )
        };
        assert_eq!(answer, expected);
        table.expect(after);
        message.expect(&[]);
    }
    let detached = [0x05, 0x00, 0x04, 0x00, 0x00];
    expect(Slice::of(&table()), Slice::of(&detached), UP, 0, &[0; TABLE_CELLS]);
    expect(Slice::NULL, Slice::of(&detached), UP, NOT_SOUND, &[]);
    for way in [DOWN, UP] {
        expect(Slice::of(&table()), Slice::NULL, way, UNREAD, &[]);
        expect(Slice::NULL, Slice::NULL, way, NOT_SOUND, &[]);
    }
}

#[test]
fn dataset_and_values() {
    #[track_caller]
    fn expect(slices: impl Fn() -> (Slice<u32>, Slice<u8>, Slice<u64>), expected: [u64; 2], written: &[u64]) {
        let (mut table, mut message, mut row) = slices();
        // SAFETY: each pointer is that of so many places, or null with the length 0.
        let answer = unsafe {
            raw::castanetash_dataset(
                table.pointer(),
                table.length(),
                message.pointer(),
                message.length(),
                UP,
                0,
                row.pointer(),
                row.length(),
            )
        };
        assert_eq!(answer, expected[0], "one dataset");
        table.expect(&[]);
        message.expect(&[]);
        row.expect(written);

        let (mut table, mut message, mut rows) = slices();
        // SAFETY: each pointer is that of so many places, or null with the length 0.
        let answer = unsafe {
            raw::castanetash_values(
                table.pointer(),
                table.length(),
                message.pointer(),
                message.length(),
                UP,
                rows.pointer(),
                rows.length(),
            )
        };
        assert_eq!(answer, expected[1], "all datasets");
        table.expect(&[]);
        message.expect(&[]);
        rows.expect(written);
    }
    let full = || Slice::of(&table());
    let value = || Slice::of(&VALUE);
    let row = || Slice::filled(DATASET_CELLS + 2);
    expect(|| (full(), value(), row()), [DATASET_CELLS as u64, 1], &DATASET);
    expect(|| (Slice::NULL, value(), row()), [NOT_SOUND; 2], &[]);
    expect(|| (full(), Slice::NULL, row()), [UNREAD; 2], &[]);
    expect(|| (full(), value(), Slice::NULL), [BAD_ROW; 2], &[]);
    expect(|| (full(), Slice::NULL, Slice::NULL), [UNREAD; 2], &[]);
    expect(|| (Slice::NULL, Slice::NULL, Slice::NULL), [NOT_SOUND; 2], &[]);
}

#[test]
fn ports() {
    #[track_caller]
    fn expect(mut table: Slice<u32>, mut ports: Slice<u8>, expected: u64, written: &[u8]) {
        // SAFETY: each pointer is that of so many places, or null with the length 0.
        let answer =
            unsafe { raw::castanetash_ports(table.pointer(), table.length(), ports.pointer(), ports.length()) };
        assert_eq!(answer, expected);
        table.expect(&[]);
        ports.expect(written);
    }
    expect(Slice::of(&table()), Slice::filled(3), 1, &[0]);
    expect(Slice::NULL, Slice::filled(3), NOT_SOUND, &[]);
    expect(Slice::of(&table()), Slice::NULL, BAD_ROW, &[]);
    // No port wants no room.
    expect(Slice::of(&[0; TABLE_CELLS]), Slice::NULL, 0, &[]);
    expect(Slice::NULL, Slice::NULL, NOT_SOUND, &[]);
}

#[test]
fn port_and_format() {
    #[track_caller]
    fn expect(slices: impl Fn() -> (Slice<u32>, Slice<u64>), expected: [u64; 2], written: [&[u64]; 2]) {
        let (mut table, mut row) = slices();
        // SAFETY: each pointer is that of so many places, or null with the length 0.
        let answer = unsafe { raw::castanetash_port(table.pointer(), table.length(), 0, row.pointer(), row.length()) };
        assert_eq!(answer, expected[0], "a port");
        table.expect(&[]);
        row.expect(written[0]);

        let (mut table, mut row) = slices();
        // SAFETY: each pointer is that of so many places, or null with the length 0.
        let answer =
            unsafe { raw::castanetash_format(table.pointer(), table.length(), 0, 2, row.pointer(), row.length()) };
        assert_eq!(answer, expected[1], "a format");
        table.expect(&[]);
        row.expect(written[1]);
    }
    let full = || Slice::of(&table());
    let row = || Slice::filled(PORT_CELLS + 2);
    let mut port = [0; PORT_CELLS];
    port[..14].copy_from_slice(&[1, 0x26, 0, 0, 0, 0, 0, 0, 0, 1, 2, 1, 1, 0]);
    let format = [1, 1, 0, 3, 0];
    expect(
        || (full(), row()),
        [PORT_CELLS as u64, FORMAT_CELLS as u64],
        [&port, &format],
    );
    expect(|| (Slice::NULL, row()), [NOT_SOUND; 2], [&[]; 2]);
    expect(|| (full(), Slice::NULL), [BAD_ROW; 2], [&[]; 2]);
    expect(|| (Slice::NULL, Slice::NULL), [NOT_SOUND; 2], [&[]; 2]);
}

#[test]
fn read_block() {
    struct Lending {
        table: Slice<u32>,
        totals: Slice<u64>,
        log: Slice<u8>,
        text: Slice<u8>,
    }
    let lending = || Lending {
        table: Slice::of(&table()),
        totals: Slice::of(&[4, 1, 7]),
        log: Slice::of(&log_record(0, Way::Up, &VALUE, 0)),
        text: Slice::filled(2000),
    };
    #[track_caller]
    fn expect(mut lent: Lending, expected: u64, totals: &[u64], text: &str) {
        // SAFETY: each pointer is that of so many places, or null with the length 0.
        let answer = unsafe {
            raw::castanetash_read_block(
                lent.table.pointer(),
                lent.table.length(),
                lent.totals.pointer(),
                lent.totals.length(),
                lent.log.pointer(),
                lent.log.length(),
                lent.text.pointer(),
                lent.text.length(),
            )
        };
        assert_eq!(answer, expected);
        // A value leaves the table as it is.
        lent.table.expect(&[]);
        lent.totals.expect(totals);
        lent.log.expect(&[]);
        lent.text.expect(text.as_bytes());
    }
    assert_eq!(lending().log.length(), LOG_RECORD);
    let line = "5 0 0 2 0 0 -3\n";
    expect(lending(), line.len() as u64, &[5, 1], line);
    let table = Slice::NULL;
    expect(Lending { table, ..lending() }, NOT_SOUND, &[], "");
    let totals = Slice::NULL;
    expect(Lending { totals, ..lending() }, BAD_ROW, &[], "");
    let log = Slice::NULL;
    expect(Lending { log, ..lending() }, 0, &[], "");
    let text = Slice::NULL;
    expect(Lending { text, ..lending() }, 0, &[], "");
    let (log, text) = (Slice::NULL, Slice::NULL);
    expect(Lending { log, text, ..lending() }, 0, &[], "");
    let (table, totals) = (Slice::NULL, Slice::NULL);
    expect(
        Lending {
            table,
            totals,
            ..lending()
        },
        NOT_SOUND,
        &[],
        "",
    );
    let none = Lending {
        table: Slice::NULL,
        totals: Slice::NULL,
        log: Slice::NULL,
        text: Slice::NULL,
    };
    expect(none, NOT_SOUND, &[], "");
}
