//! Every function of the product, refused in every way that it can be. A refused call changes no byte and no cell of
//! anything that it is lent, and an accepted one none past what it writes. All answers are written out by hand.

use std::collections::BTreeSet;

use differential::{
    castanetash_dataset, castanetash_empty, castanetash_format, castanetash_offer, castanetash_port, castanetash_ports,
    castanetash_read, castanetash_read_block, castanetash_values, castanetash_write, number, Lent, BAD_ROW,
    DATASET_CELLS, FORMAT_CELLS, NOT_SOUND, PORT_CELLS, ROW_CELLS, TOTALS_CELLS,
};
use yardstick::examples::{bytes, COMBINED_SOUND, SOUND};
use yardstick::{log_record, Table, Way, LINE_ROOM, LOG_RECORD, TABLE_CELLS};

const DOWN: u8 = 0;
const UP: u8 = 1;

/// An answer that refuses.
const fn refusal(number: u64, place: u64) -> u64 {
    number << 32 | place
}

/// The numbers of the refusals that a function gave, and how many calls there were.
#[derive(Default)]
struct Given {
    numbers: BTreeSet<usize>,
    calls: u64,
}

impl Given {
    #[track_caller]
    fn expect(&mut self, answer: u64, expected: u64, name: &str) {
        assert_eq!(
            [answer >> 32, answer & 0xFFFF_FFFF],
            [expected >> 32, expected & 0xFFFF_FFFF],
            "{name}"
        );
        self.numbers.insert(number(answer));
        self.calls += 1;
    }

    /// Panics unless these numbers were given, 0 for acceptance, and no others.
    #[track_caller]
    fn expect_all(&self, function: &str, numbers: &[usize]) {
        println!("{function}: {} calls, answers {:?}", self.calls, self.numbers);
        assert!(self.numbers.iter().eq(numbers), "{function} gave {:?}", self.numbers);
    }
}

/// After a call: what it only looks at is as it was, and what it writes to starts with what it wrote.
#[track_caller]
fn expect_written<T: differential::Filling>(answer: u64, lent: &Lent<T>, written: &[T], name: &str) {
    if number(answer) == 0 {
        lent.expect(written, name);
    } else {
        lent.expect_unchanged(name);
    }
}

/// Messages that reading refuses, with their way and the answer. The place of 6 is the size that was wanted.
const UNREAD: [(u8, &str, u64); 35] = [
    (DOWN, "", refusal(1, 0)),
    (UP, "80", refusal(2, 0)),
    (DOWN, "04 00 02", refusal(3, 0)),
    (UP, "02 00", refusal(3, 0)),
    (DOWN, "03 01 12", refusal(4, 1)),
    (UP, "03 00 12", refusal(5, 2)),
    (UP, "05 00 61 00 10", refusal(5, 2)),
    (DOWN, "03 00 02", refusal(6, 4)),
    (DOWN, "05 00 02 01 00", refusal(6, 4)),
    (DOWN, "04 00 01 63", refusal(6, 5)),
    (UP, "05 00 44 00 63", refusal(6, 6)),
    (UP, "06 00 44 00 01 00", refusal(6, 7)),
    (UP, "06 00 43 00 02 16", refusal(6, 7)),
    (UP, "04 00 45 00", refusal(6, 5)),
    (DOWN, "05 00 61 01 00", refusal(6, 6)),
    (UP, "0E 00 04 00 01 26 00 00 00 00 10 00 00 00", refusal(6, 15)),
    (DOWN, "04 00 12 00", refusal(6, 3)),
    (DOWN, "04 00 02 07", refusal(7, 3)),
    (UP, "0E 00 44 00 00 01 00 00 00 00 00 00 80 7F", refusal(7, 10)),
    (UP, "0E 00 81 10 11 14 00 00 00 00 00 00 00 00", refusal(5, 2)),
    (DOWN, "05 00 81 10 11", refusal(6, 6)),
    (DOWN, "06 00 81 10 22 0B", refusal(7, 5)),
    (DOWN, "0E 00 81 10 22 0E 00 00 00 00 00 00 00 00", refusal(6, 18)),
    (DOWN, "0F 00 81 10 11 0C 00 00 00 00 32 9B 64 00 00", refusal(7, 11)),
    (UP, "06 00 82 10 20 00", refusal(6, 5)),
    (UP, "07 00 82 63 0A 00 20", refusal(7, 6)),
    (UP, "08 00 42 00 01 00 10 21", refusal(5, 2)),
    (DOWN, "07 00 48 06 00 01 00", refusal(5, 2)),
    (DOWN, "04 00 42 00", refusal(6, 5)),
    (DOWN, "06 00 42 00 01 00", refusal(6, 7)),
    (DOWN, "06 00 42 00 02 00", refusal(6, 5)),
    (UP, "06 00 46 06 01 00", refusal(6, 7)),
    (UP, "08 00 48 06 00 01 00 00", refusal(6, 7)),
    (DOWN, "05 00 42 00 05", refusal(7, 4)),
    (DOWN, "0A 00 42 00 01 00 10 21 21 10", refusal(7, 8)),
];

#[test]
fn read() {
    let mut given = Given::default();
    let mut call = |way: u8, message: &str, cells: usize, expected: u64, written: &[u64]| {
        let name = format!("`{message}`, way {way}, {cells} cells");
        let (mut message, mut row) = (Lent::holding(&bytes(message)), Lent::filled(cells));
        let answer = castanetash_read(message.lend(), way, row.lend());
        given.expect(answer, expected, &name);
        message.expect_unchanged(&name);
        expect_written(answer, &row, written, &name);
    };
    // The message's own refusal comes before that of too short a row.
    for (way, message, expected) in UNREAD {
        for cells in 0..=ROW_CELLS + 4 {
            call(way, message, cells, expected, &[]);
        }
    }
    for (way, message, row) in [
        (DOWN, "03 00 12", [17, 0, 0, 0, 0, 0, 0, 0, 0, 0, 0, 0, 0, 0, 0, 0]),
        (
            UP,
            "06 00 45 07 FE FF",
            [30, 4, 2, 1, 7, 0, 0, 0, 0, 0, 0, 0, 0, 0, 0, 0],
        ),
        (
            UP,
            "09 00 43 01 02 16 00 03 00",
            [23, 0, 0, 11, 1, 2, 2, 0x16, 3, 0, 0, 0, 0, 0, 0, 0],
        ),
        (
            DOWN,
            "0F 00 81 10 11 0C 68 01 00 00 32 CE 64 7E 03",
            [34, 0, 0, 9, 16, 17, 12, 360, 50, -50_i64 as u64, 100, 126, 3, 0, 0, 0],
        ),
        (
            UP,
            "07 00 82 10 0A 00 1F",
            [38, 3, 4, 0, 0, 0, 0, 0, 0, 0, 0, 0, 0, 0, 0, 0],
        ),
        (
            DOWN,
            "05 00 42 07 06",
            [39, 0, 0, 2, 7, 6, 0, 0, 0, 0, 0, 0, 0, 0, 0, 0],
        ),
        (
            DOWN,
            "08 00 42 07 01 03 10 21",
            [40, 6, 2, 3, 7, 1, 3, 0, 0, 0, 0, 0, 0, 0, 0, 0],
        ),
        (
            UP,
            "09 00 46 07 03 01 80 FE FF",
            [41, 6, 3, 2, 7, 0x103, 0, 0, 0, 0, 0, 0, 0, 0, 0, 0],
        ),
        (
            UP,
            "07 00 48 07 80 03 01",
            [42, 0, 0, 3, 7, 0x80, 0x103, 0, 0, 0, 0, 0, 0, 0, 0, 0],
        ),
    ] {
        for cells in 0..ROW_CELLS {
            call(way, message, cells, BAD_ROW, &[]);
        }
        for cells in ROW_CELLS..ROW_CELLS + 20 {
            call(way, message, cells, ROW_CELLS as u64, &row);
        }
    }
    given.expect_all("castanetash_read", &[0, 1, 2, 3, 4, 5, 6, 7, 255]);
}

#[test]
fn write() {
    let mut given = Given::default();
    let mut call = |way: u8, row: &[u64], open: &[u8], out: usize, expected: u64, written: &str| {
        let name = format!("{row:X?}, way {way}, open bytes {open:02X?}, {out} bytes of output");
        let (mut row, mut open, mut out) = (Lent::holding(row), Lent::holding(open), Lent::filled(out));
        let answer = castanetash_write(row.lend(), way, open.lend(), out.lend());
        given.expect(answer, expected, &name);
        row.expect_unchanged(&name);
        open.expect_unchanged(&name);
        expect_written(answer, &out, &bytes(written), &name);
    };
    // Cells that aren't looked at hold anything.
    let row = |form: u64, values: &[u64]| {
        let mut row = [u64::MAX; ROW_CELLS];
        row[0] = form;
        row[4..][..values.len()].copy_from_slice(values);
        row
    };
    let every_output = || (0..20).chain([127, 128, 200]);

    // A 41, and a name (44, type 0).
    let setup = row(21, &[0x32, 15, 0x7856_3412, 1]);
    let text = row(24, &[0, 1, 0]);
    // Too short a row comes first, before the way, the open bytes and the output.
    for (way, row, open) in [(DOWN, setup, &b""[..]), (UP, setup, b"xyz"), (UP, text, b"SPEED")] {
        for cells in 0..ROW_CELLS {
            for out in every_output() {
                call(way, &row[..cells], open, out, BAD_ROW, "");
            }
        }
    }
    // No form, which comes as early.
    for form in [0, 43, 255, 256 + 21, 1 << 32 | 21, u64::MAX] {
        for way in [DOWN, UP] {
            for out in every_output() {
                call(way, &row(form, &[0x32, 15, 1, 1]), b"xyz", out, BAD_ROW, "");
            }
        }
    }
    for out in every_output() {
        // The other way, with all else wrong too.
        call(UP, &row(21, &[300, 300, 1 << 32, 300]), b"xyz", out, refusal(5, 2), "");
        call(DOWN, &row(11, &[300, 300]), b"xyz", out, refusal(5, 2), "");
        call(UP, &row(16, &[300]), b"xyz", out, refusal(5, 2), "");
        call(UP, &row(17, &[300]), b"xyz", out, refusal(5, 2), "");
        call(DOWN, &row(18, &[300]), b"xyz", out, refusal(5, 2), "");
        call(UP, &row(34, &[300, 300, 300]), b"xyz", out, refusal(5, 2), "");
        call(DOWN, &row(38, &[]), b"xyz", out, refusal(5, 2), "");
        call(UP, &row(39, &[300, 300]), b"xyz", out, refusal(5, 2), "");
        call(UP, &row(40, &[300, 300, 300]), b"xx", out, refusal(5, 2), "");
        call(DOWN, &row(41, &[300, 65_536]), b"", out, refusal(5, 2), "");
        call(DOWN, &row(42, &[300, 300, 65_536]), b"x", out, refusal(5, 2), "");
        // 11, 12 and 13 are only read, which comes next; alone, and with wrong open bytes and a wide number.
        for open in [&b""[..], b"xyz"] {
            call(DOWN, &row(16, &[]), open, out, refusal(23, 0), "");
            call(DOWN, &row(17, &[]), open, out, refusal(23, 0), "");
            for status in [0, 255, 256, 300, u64::MAX] {
                call(UP, &row(18, &[status]), open, out, refusal(23, 0), "");
            }
        }
        // Selectors: in no list, wider than a byte, another form's; with wrong open bytes and a wide port.
        call(DOWN, &row(8, &[7]), b"xyz", out, refusal(7, 3), "");
        call(UP, &row(4, &[300, 6, 300]), b"xyz", out, refusal(7, 3), "");
        call(UP, &row(4, &[3, 6, 300]), b"xyz", out, refusal(7, 4), "");
        call(UP, &row(11, &[300, 1]), b"xyz", out, refusal(7, 4), "");
        call(UP, &row(24, &[300, 300, 1]), b"", out, refusal(7, 5), "");
        call(DOWN, &row(37, &[300, 300, 12]), b"xyz", out, refusal(7, 5), "");
        call(DOWN, &row(37, &[300, 300, 256 + 20]), b"xyz", out, refusal(7, 5), "");
        call(DOWN, &row(39, &[300, 5]), b"xyz", out, refusal(7, 4), "");
        call(DOWN, &row(39, &[300, 1]), b"xyz", out, refusal(7, 4), "");
        call(DOWN, &row(40, &[300, 2, 300]), b"", out, refusal(7, 4), "");
        call(DOWN, &row(40, &[300, 256 + 1, 300]), b"xx", out, refusal(7, 4), "");
        // Open bytes: some for a form without them, too few, too many. The count of a 43. The place is the smallest
        // size of the form, of a 43's list the one with a single entry.
        call(DOWN, &row(21, &[300, 300, 1, 300]), b"x", out, refusal(6, 10), "");
        call(UP, &row(12, &[300, 1, 0x26, 0, 0]), b"x", out, refusal(6, 15), "");
        call(DOWN, &row(15, &[]), b"xyz", out, refusal(6, 12), "");
        call(UP, &row(24, &[300, 300, 0]), b"", out, refusal(6, 7), "");
        call(UP, &row(24, &[0, 1, 0]), b"twelve bytes", out, refusal(6, 7), "");
        call(DOWN, &row(2, &[1, 1]), b"", out, refusal(6, 6), "");
        call(UP, &row(30, &[300]), b"", out, refusal(6, 5), "");
        call(UP, &row(30, &[0]), &[b'x'; 124], out, refusal(6, 5), "");
        call(UP, &row(23, &[300, 2, 300]), b"", out, refusal(6, 7), "");
        call(UP, &row(23, &[0, 2, 0]), b"", out, refusal(6, 7), "");
        call(UP, &row(23, &[0, 2, 3, 1, 2, 3]), b"x", out, refusal(6, 7), "");
        call(DOWN, &row(36, &[300, 300, 14]), b"x", out, refusal(6, 18), "");
        call(UP, &row(38, &[]), b"", out, refusal(6, 5), "");
        call(UP, &row(38, &[]), b"\x10\x0A\x00", out, refusal(6, 5), "");
        call(UP, &row(38, &[]), &[0xFF; 126], out, refusal(6, 5), "");
        call(DOWN, &row(39, &[300, 6]), b"x", out, refusal(6, 5), "");
        call(DOWN, &row(40, &[300, 1, 300]), b"", out, refusal(6, 7), "");
        call(DOWN, &row(40, &[300, 1, 300]), &[b'x'; 17], out, refusal(6, 7), "");
        call(UP, &row(41, &[300, 65_536]), b"", out, refusal(6, 7), "");
        call(UP, &row(41, &[0, 1]), &[b'x'; 122], out, refusal(6, 7), "");
        call(UP, &row(42, &[300, 300, 65_536]), b"x", out, refusal(6, 7), "");
        // Fields with a list: the first of two, the second, and one to the right of a wide number.
        call(DOWN, &row(21, &[300, 300, 1, 300]), b"", out, refusal(7, 4), "");
        call(DOWN, &row(21, &[300, 15, 1 << 32, 2]), b"", out, refusal(7, 9), "");
        call(UP, &row(28, &[300, 0, 8, 1 << 48]), b"", out, refusal(7, 6), "");
        call(
            UP,
            &row(25, &[0, 0, 1, 1 << 32, 0x7F80_0000]),
            b"",
            out,
            refusal(7, 10),
            "",
        );
        let turn = |degrees: i64, speed: i64| row(34, &[300, 17, 12, degrees as u64, 100, speed as u64, 0, 0, 0]);
        call(DOWN, &row(37, &[300, 18, 20, 1 << 32]), b"", out, refusal(7, 4), "");
        call(DOWN, &turn(-1, 101), b"", out, refusal(7, 6), "");
        call(DOWN, &turn(1 << 32, 101), b"", out, refusal(7, 6), "");
        call(DOWN, &turn(360, -101), b"", out, refusal(7, 11), "");
        call(DOWN, &turn(360, 200), b"", out, refusal(7, 11), "");
        call(DOWN, &turn(360, i64::MIN), b"", out, refusal(7, 11), "");
        call(UP, &row(38, &[]), b"\x10\x1F\x00\x20", out, refusal(7, 6), "");
        call(
            DOWN,
            &row(40, &[300, 1, 300]),
            b"\x10\x21\x21\x10",
            out,
            refusal(7, 8),
            "",
        );
        // Numbers that are wider than their fields, which have no list.
        call(DOWN, &turn(360, -100), b"", out, BAD_ROW, "");
        call(DOWN, &row(37, &[16, 17, 20, 1 << 31, 0]), b"", out, BAD_ROW, "");
        call(DOWN, &row(21, &[300, 15, 1, 1]), b"", out, BAD_ROW, "");
        call(DOWN, &row(21, &[0, 15, 1 << 32, 1]), b"", out, BAD_ROW, "");
        call(UP, &row(4, &[5, 6, 128]), b"", out, BAD_ROW, "");
        call(UP, &row(23, &[0, 2, 2, 1, 65_536]), b"", out, BAD_ROW, "");
        call(DOWN, &row(39, &[300, 6]), b"", out, BAD_ROW, "");
        call(DOWN, &row(40, &[0, 1, 300]), b"\x10\x21", out, BAD_ROW, "");
        call(UP, &row(41, &[0, 65_536]), b"x", out, BAD_ROW, "");
        call(UP, &row(42, &[0, 256, 1]), b"", out, BAD_ROW, "");
    }
    // The output, of every length.
    let written = "0A 00 41 32 0F 12 34 56 78 01";
    for out in 0..10 {
        call(DOWN, &setup, b"", out, refusal(8, 0), "");
        call(UP, &text, b"SPEED", out, refusal(8, 0), "");
    }
    call(UP, &text, b"SPEED", 10, refusal(8, 0), "");
    for out in [10, 11, 12, 127, 128, 200] {
        call(DOWN, &setup, b"", out, 10, written);
    }
    for out in [11, 12, 127, 128, 200] {
        call(UP, &text, b"SPEED", out, 11, "0B 00 44 00 01 00 53 50 45 45 44");
    }
    let feedback = row(38, &[]);
    for out in 0..7 {
        call(UP, &feedback, b"\x10\x0A\x00\x1F", out, refusal(8, 0), "");
    }
    for out in [7, 8, 127, 128, 200] {
        call(UP, &feedback, b"\x10\x0A\x00\x1F", out, 7, "07 00 82 10 0A 00 1F");
    }
    let list = row(40, &[7, 1, 3]);
    for out in 0..8 {
        call(DOWN, &list, b"\x10\x21", out, refusal(8, 0), "");
    }
    for out in [8, 9, 127, 128, 200] {
        call(DOWN, &list, b"\x10\x21", out, 8, "08 00 42 07 01 03 10 21");
    }
    given.expect_all("castanetash_write", &[0, 5, 6, 7, 8, 23, 255]);
}

/// A table with ports 0 to 6, 16 and 200. Port 0 sends two numbers of 16 bits in mode 0, as experiment 301 asked; port 1
/// has no mode; port 2 has one without a format; port 3 sends two floats in mode 1, which nobody asked for; ports 4 and 5
/// are joined by 16. Port 6 is combined, as experiment 301 asked: a number of 8 bits in mode 1, a float in mode 2, mode 3,
/// which has no format, and a dataset that mode 1 has not; the hub has pointers to these, and not to a fifth.
fn table() -> Vec<u32> {
    let mut table = Table::default();
    for (way, message) in [
        (Way::Up, "0F 00 04 C8 01 26 00 00 00 00 10 00 00 00 10"),
        (Way::Up, "0F 00 04 03 01 26 00 00 00 00 10 00 00 00 10"),
        (Way::Up, "0F 00 04 02 01 26 00 00 00 00 10 00 00 00 10"),
        (Way::Up, "0F 00 04 01 01 26 00 00 00 00 10 00 00 00 10"),
        (Way::Up, "0F 00 04 00 01 26 00 00 00 00 10 00 00 00 10"),
        (Way::Up, "0F 00 04 04 01 26 00 00 00 00 10 00 00 00 10"),
        (Way::Up, "0F 00 04 05 01 26 00 00 00 00 10 00 00 00 10"),
        (Way::Up, "09 00 04 10 02 27 00 04 05"),
        (Way::Up, "0A 00 44 00 00 80 02 01 05 01"),
        (Way::Down, "0A 00 41 00 00 0A 00 00 00 01"),
        (Way::Up, "0A 00 47 00 00 0A 00 00 00 01"),
        (Way::Up, "0A 00 47 02 03 01 00 00 00 00"),
        (Way::Up, "0A 00 44 03 01 80 02 03 04 02"),
        (Way::Up, "0A 00 47 03 01 01 00 00 00 00"),
        (Way::Up, "0F 00 04 06 01 25 00 00 00 00 10 00 00 00 10"),
        (Way::Up, "0A 00 44 06 01 80 01 00 03 00"),
        (Way::Up, "0A 00 44 06 02 80 02 03 08 03"),
        (Way::Down, "0B 00 42 06 01 00 10 21 30 1F 20"),
        (Way::Up, "07 00 48 06 00 0F 00"),
    ] {
        let answer = table.offer(way, &bytes(message), 301);
        assert_eq!(answer, Ok(()), "{message}");
    }
    table.to_cells().to_vec()
}

/// The ports of that table.
const PORTS: [u8; 9] = [0, 1, 2, 3, 4, 5, 6, 16, 200];

/// A table whose sixteen places are in use, by ports 100 to 115.
fn full() -> Vec<u32> {
    let mut table = Table::default();
    for port in 100..116 {
        let mut message = bytes("0F 00 04 00 01 26 00 00 00 00 10 00 00 00 10");
        message[3] = port;
        assert_eq!(table.offer(Way::Up, &message, 0), Ok(()), "port {port}");
    }
    table.to_cells().to_vec()
}

/// Cells that are no sound table: those that are unsound by hand, and other lengths.
fn unsound() -> Vec<Vec<u32>> {
    let examples = SOUND.iter().chain(COMBINED_SOUND);
    let damaged = examples.filter(|example| !example.is_sound);
    let mut tables: Vec<Vec<u32>> = damaged.map(|example| example.cells().to_vec()).collect();
    for length in [0, 1, 2, 62, 63, 64, 464, 945, 1007, 1009, 1071, 2016] {
        tables.push(vec![0; length]);
        let mut cells = table();
        cells.resize(length, 0);
        tables.push(cells);
    }
    assert!(tables.len() >= 150, "{} tables", tables.len());
    tables
}

/// Messages that reading accepts and the table refuses, with the answer.
const UNSUITABLE: [(u8, &str, u64); 32] = [
    (UP, "05 00 45 63 00", refusal(10, 0)),
    (DOWN, "05 00 21 63 00", refusal(10, 0)),
    (UP, "0F 00 04 00 01 26 00 00 00 00 10 00 00 00 10", refusal(11, 0)),
    (UP, "09 00 04 00 02 26 00 01 01", refusal(11, 0)),
    (UP, "09 00 04 11 02 26 00 01 01", refusal(12, 0)),
    (UP, "09 00 04 11 02 26 00 04 63", refusal(12, 0)),
    (DOWN, "06 00 61 01 00 04", refusal(12, 0)),
    (DOWN, "05 00 61 00 00", refusal(12, 0)),
    (UP, "05 00 45 01 00", refusal(14, 0)),
    (UP, "05 00 45 02 00", refusal(15, 0)),
    (UP, "07 00 45 00 00 00 00", refusal(16, 0)),
    (UP, "0D 00 45 03 00 00 80 3F 00 00 80 7F 00", refusal(16, 0)),
    (DOWN, "0E 00 81 63 11 0D 00 00 00 00 01 00 00 00", refusal(10, 0)),
    (DOWN, "0E 00 81 63 11 14 00 00 00 00 00 00 00 00", refusal(10, 0)),
    (DOWN, "0E 00 81 00 11 14 00 00 00 00 00 00 00 00", refusal(22, 0)),
    (DOWN, "0F 00 81 04 11 0C 00 00 00 00 32 CE 64 00 00", refusal(22, 0)),
    (
        DOWN,
        "12 00 81 C8 11 0E 00 00 00 00 00 00 00 00 01 00 00 00",
        refusal(22, 0),
    ),
    (UP, "07 00 82 10 0A 63 01", refusal(10, 0)),
    (DOWN, "05 00 42 63 02", refusal(10, 0)),
    (DOWN, "08 00 42 63 01 00 10 21", refusal(10, 0)),
    (UP, "07 00 48 63 00 00 00", refusal(10, 0)),
    (UP, "07 00 46 63 00 00 00", refusal(10, 0)),
    (UP, "05 00 45 06 00", refusal(14, 0)),
    (UP, "07 00 46 00 00 00 00", refusal(20, 0)),
    (UP, "07 00 48 00 00 01 00", refusal(21, 0)),
    (UP, "07 00 48 06 00 00 00", refusal(21, 0)),
    (UP, "07 00 48 06 00 20 00", refusal(21, 0)),
    (UP, "07 00 46 06 00 00 00", refusal(21, 0)),
    (UP, "07 00 46 06 14 00 00", refusal(21, 0)),
    (UP, "07 00 46 06 0C 00 00", refusal(15, 0)),
    (UP, "07 00 46 06 0A 00 00", refusal(17, 0)),
    (UP, "0A 00 46 06 03 00 FE 00 00 80", refusal(16, 0)),
];

/// Messages that are accepted and have no value.
const OTHERS: [(u8, &str); 9] = [
    (DOWN, "03 00 12"),
    (UP, "04 00 13 FF"),
    (DOWN, "0A 00 41 01 02 01 00 00 00 01"),
    (DOWN, "0E 00 81 10 11 14 00 00 00 00 00 00 00 00"),
    (DOWN, "0E 00 81 04 11 0D 00 00 00 00 01 00 00 00"),
    (UP, "09 00 82 10 0A 04 01 C8 1F"),
    (DOWN, "05 00 42 06 06"),
    (DOWN, "07 00 42 01 01 00 10"),
    (UP, "07 00 48 06 00 01 00"),
];

/// The value of port 0: 5 and -3.
const VALUE: &str = "08 00 45 00 05 00 FD FF";

/// Values of port 3: 1.0 and 2.0, then with an infinity or a NaN as one of the two.
const FLOATS: &str = "0C 00 45 03 00 00 80 3F 00 00 00 40";
const LAST_INFINITE: &str = "0C 00 45 03 00 00 80 3F 00 00 80 7F";
const FIRST_NAN: &str = "0C 00 45 03 00 00 C0 7F 00 00 00 40";

/// Combined values of port 6: -2 and 1.0, and with a NaN in place of that.
const COMBINED: &str = "0B 00 46 06 03 00 FE 00 00 80 3F";
const COMBINED_NAN: &str = "0B 00 46 06 03 00 FE 00 00 C0 7F";

/// All messages that a table call refuses, or that have no value, for calls that come to 9 before.
fn all_messages() -> Vec<(u8, &'static str)> {
    let refused = UNREAD
        .iter()
        .chain(&UNSUITABLE)
        .map(|&(way, message, _)| (way, message));
    let values = [VALUE, FLOATS, LAST_INFINITE, FIRST_NAN, COMBINED, COMBINED_NAN].map(|message| (UP, message));
    refused.chain(OTHERS).chain(values).collect()
}

#[test]
fn empty() {
    let mut given = Given::default();
    for cells in unsound()
        .into_iter()
        .chain([table(), full(), vec![u32::MAX; TABLE_CELLS]])
    {
        let name = format!("{} cells", cells.len());
        let mut table = Lent::holding(&cells);
        let answer = castanetash_empty(table.lend());
        let expected = if cells.len() == TABLE_CELLS { 0 } else { NOT_SOUND };
        given.expect(answer, expected, &name);
        expect_written(answer, &table, &[0; TABLE_CELLS], &name);
    }
    for length in (0..1100).filter(|&length| length != TABLE_CELLS) {
        let name = format!("{length} cells");
        let mut table = Lent::filled(length);
        given.expect(castanetash_empty(table.lend()), NOT_SOUND, &name);
        table.expect_unchanged(&name);
    }
    given.expect_all("castanetash_empty", &[0, 9]);
}

#[test]
fn offer() {
    let mut given = Given::default();
    let mut call = |cells: &[u32], way: u8, message: &str, expected: u64| {
        let name = format!("`{message}`, way {way}, {} cells {cells:X?}", cells.len());
        let (mut table, mut message) = (Lent::holding(cells), Lent::holding(&bytes(message)));
        let answer = castanetash_offer(table.lend(), message.lend(), way, 7);
        given.expect(answer, expected, &name);
        message.expect_unchanged(&name);
        // What an accepted message makes of a table is compared elsewhere; nothing beside it changes.
        let after = table.contents().to_vec();
        expect_written(answer, &table, &after, &name);
        after
    };
    for cells in unsound() {
        for (way, message) in all_messages() {
            call(&cells, way, message, NOT_SOUND);
        }
    }
    for (way, message, expected) in UNREAD {
        for cells in [table(), full(), vec![0; TABLE_CELLS]] {
            call(&cells, way, message, expected);
        }
    }
    for (way, message, expected) in UNSUITABLE {
        call(&table(), way, message, expected);
    }
    // The seventeenth port, plain and virtual; 11 and 12 come before.
    call(
        &full(),
        UP,
        "0F 00 04 00 01 26 00 00 00 00 10 00 00 00 10",
        refusal(13, 0),
    );
    call(&full(), UP, "09 00 04 00 02 26 00 64 65", refusal(13, 0));
    call(
        &full(),
        UP,
        "0F 00 04 64 01 26 00 00 00 00 10 00 00 00 10",
        refusal(11, 0),
    );
    call(&full(), UP, "09 00 04 00 02 26 00 64 64", refusal(12, 0));
    // Accepted ones: most leave the table as it is, and a value does, whatever its floats are.
    for message in [VALUE, FLOATS, LAST_INFINITE, FIRST_NAN, COMBINED, COMBINED_NAN] {
        assert_eq!(call(&table(), UP, message, 0), table());
    }
    assert_eq!(call(&table(), DOWN, "03 00 12", 0), table());
    for (way, message) in &OTHERS[3..7] {
        assert_eq!(call(&table(), *way, message, 0), table());
    }
    for (way, message) in &OTHERS[7..] {
        assert_ne!(call(&table(), *way, message, 0), table());
    }
    assert_eq!(call(&table(), UP, "04 00 02 30", 0), [0; TABLE_CELLS]);
    assert_ne!(call(&table(), DOWN, "0A 00 41 01 02 01 00 00 00 01", 0), table());
    given.expect_all(
        "castanetash_offer",
        &[0, 1, 2, 3, 4, 5, 6, 7, 9, 10, 11, 12, 13, 14, 15, 16, 17, 20, 21, 22],
    );
}

/// The lengths of a row that are tried where the refusal doesn't hang on it.
const ANY_LENGTH: [usize; 7] = [0, 1, 5, 6, 7, 12, 96];

#[test]
fn dataset() {
    let mut given = Given::default();
    let mut call =
        |cells: &[u32], way: u8, message: &str, number: usize, room: usize, expected: u64, written: &[u64]| {
            let name = format!("dataset {number} of `{message}`, way {way}, {room} cells; table {cells:X?}");
            let (mut table, mut message) = (Lent::holding(cells), Lent::holding(&bytes(message)));
            let mut row = Lent::filled(room);
            let answer = castanetash_dataset(table.lend(), message.lend(), way, number, row.lend());
            given.expect(answer, expected, &name);
            table.expect_unchanged(&name);
            message.expect_unchanged(&name);
            expect_written(answer, &row, written, &name);
        };
    // 9 comes before the message, the number and the row.
    for cells in unsound() {
        for (way, message) in all_messages() {
            call(&cells, way, message, 0, 0, NOT_SOUND, &[]);
            call(&cells, way, message, 99, DATASET_CELLS, NOT_SOUND, &[]);
        }
    }
    let cells = table();
    for room in ANY_LENGTH {
        // So do the message's refusals.
        for (way, message, expected) in UNREAD.into_iter().chain(UNSUITABLE) {
            for number in [0, 1, 99, usize::MAX] {
                call(&cells, way, message, number, room, expected, &[]);
            }
        }
        let attached = "0F 00 04 00 01 26 00 00 00 00 10 00 00 00 10";
        call(&full(), UP, attached, 0, room, refusal(13, 0), &[]);
        // No dataset of that number, and no value at all. 17 comes before 18.
        for number in [2, 3, 16, 255, 256, 1 << 16, 1 << 32, usize::MAX] {
            call(&cells, UP, COMBINED, number, room, refusal(17, 0), &[]);
            call(&cells, UP, COMBINED_NAN, number, room, refusal(17, 0), &[]);
            call(&cells, UP, VALUE, number, room, refusal(17, 0), &[]);
            call(&cells, UP, FIRST_NAN, number, room, refusal(17, 0), &[]);
        }
        for (way, message) in OTHERS {
            call(&cells, way, message, 0, room, refusal(17, 0), &[]);
        }
        call(&cells, UP, FIRST_NAN, 0, room, refusal(18, 0), &[]);
        call(&cells, UP, LAST_INFINITE, 1, room, refusal(18, 0), &[]);
        call(&cells, UP, COMBINED_NAN, 1, room, refusal(18, 0), &[]);
    }
    for (message, number, row) in [
        (VALUE, 0, [0, 5, 0, 0, 2, 301]),
        (VALUE, 1, [0, -3_i64 as u64, 0, 0, 2, 301]),
        (FLOATS, 0, [1, 0x3F80_0000, 3, 1, 0, 0]),
        (FLOATS, 1, [1, 0x4000_0000, 3, 1, 0, 0]),
        // The other one is not judged.
        (LAST_INFINITE, 0, [1, 0x3F80_0000, 3, 1, 0, 0]),
        (FIRST_NAN, 1, [1, 0x4000_0000, 3, 1, 0, 0]),
        // The mode is that of the entry. The hub has no pointer to the fifth entry, so the state is 3.
        (COMBINED, 0, [0, -2_i64 as u64, 6, 1, 3, 0]),
        (COMBINED, 1, [1, 0x3F80_0000, 6, 2, 3, 0]),
        (COMBINED_NAN, 0, [0, -2_i64 as u64, 6, 1, 3, 0]),
    ] {
        for room in 0..DATASET_CELLS {
            call(&cells, UP, message, number, room, BAD_ROW, &[]);
        }
        for room in DATASET_CELLS..DATASET_CELLS + 10 {
            call(&cells, UP, message, number, room, DATASET_CELLS as u64, &row);
        }
    }
    given.expect_all(
        "castanetash_dataset",
        &[
            0, 1, 2, 3, 4, 5, 6, 7, 9, 10, 11, 12, 13, 14, 15, 16, 17, 18, 20, 21, 22, 255,
        ],
    );
}

#[test]
fn values() {
    let mut given = Given::default();
    let mut call = |cells: &[u32], way: u8, message: &str, room: usize, expected: u64, written: &[u64]| {
        let name = format!("values of `{message}`, way {way}, {room} cells; table {cells:X?}");
        let (mut table, mut message) = (Lent::holding(cells), Lent::holding(&bytes(message)));
        let mut rows = Lent::filled(room);
        let answer = castanetash_values(table.lend(), message.lend(), way, rows.lend());
        given.expect(answer, expected, &name);
        table.expect_unchanged(&name);
        message.expect_unchanged(&name);
        expect_written(answer, &rows, written, &name);
    };
    // 9 comes before the message and the rows.
    for cells in unsound() {
        for (way, message) in all_messages() {
            call(&cells, way, message, 0, NOT_SOUND, &[]);
            call(&cells, way, message, 96, NOT_SOUND, &[]);
        }
    }
    let cells = table();
    for room in ANY_LENGTH {
        // So do the message's refusals.
        for (way, message, expected) in UNREAD.into_iter().chain(UNSUITABLE) {
            call(&cells, way, message, room, expected, &[]);
        }
        let attached = "0F 00 04 00 01 26 00 00 00 00 10 00 00 00 10";
        call(&full(), UP, attached, room, refusal(13, 0), &[]);
        for (way, message) in OTHERS {
            call(&cells, way, message, room, refusal(17, 0), &[]);
        }
        // Any dataset that isn't finite, even if the rows before it would be long enough.
        call(&cells, UP, FIRST_NAN, room, refusal(18, 0), &[]);
        call(&cells, UP, LAST_INFINITE, room, refusal(18, 0), &[]);
        call(&cells, UP, COMBINED_NAN, room, refusal(18, 0), &[]);
    }
    for (message, rows) in [
        (VALUE, [0, 5, 0, 0, 2, 301, 0, -3_i64 as u64, 0, 0, 2, 301]),
        (FLOATS, [1, 0x3F80_0000, 3, 1, 0, 0, 1, 0x4000_0000, 3, 1, 0, 0]),
        (COMBINED, [0, -2_i64 as u64, 6, 1, 3, 0, 1, 0x3F80_0000, 6, 2, 3, 0]),
    ] {
        for room in 0..rows.len() {
            call(&cells, UP, message, room, BAD_ROW, &[]);
        }
        for room in rows.len()..rows.len() + 10 {
            call(&cells, UP, message, room, 2, &rows);
        }
    }
    given.expect_all(
        "castanetash_values",
        &[
            0, 1, 2, 3, 4, 5, 6, 7, 9, 10, 11, 12, 13, 14, 15, 16, 17, 18, 20, 21, 22, 255,
        ],
    );
}

#[test]
fn ports() {
    let mut given = Given::default();
    let mut call = |cells: &[u32], room: usize, expected: u64, written: &[u8]| {
        let name = format!("{room} bytes for ports; table {cells:X?}");
        // No byte is the port that is to stand there.
        let mut filling = vec![0xA5; room];
        for (byte, port) in filling.iter_mut().zip(written) {
            *byte = !port;
        }
        let (mut table, mut ports) = (Lent::holding(cells), Lent::holding(&filling));
        let answer = castanetash_ports(table.lend(), ports.lend());
        given.expect(answer, expected, &name);
        table.expect_unchanged(&name);
        expect_written(answer, &ports, written, &name);
    };
    for cells in unsound() {
        for room in 0..20 {
            call(&cells, room, NOT_SOUND, &[]);
        }
    }
    let all: Vec<u8> = (100..116).collect();
    for (cells, ports) in [(table(), &PORTS[..]), (full(), &all), (vec![0; TABLE_CELLS], &[])] {
        for room in 0..ports.len() {
            call(&cells, room, BAD_ROW, &[]);
        }
        for room in ports.len()..ports.len() + 10 {
            call(&cells, room, ports.len() as u64, ports);
        }
    }
    given.expect_all("castanetash_ports", &[0, 9, 255]);
}

#[test]
fn port() {
    let mut given = Given::default();
    let mut call = |cells: &[u32], port: u8, room: usize, expected: u64, written: &[u64]| {
        let name = format!("port {port}, {room} cells; table {cells:X?}");
        let (mut table, mut row) = (Lent::holding(cells), Lent::filled(room));
        let answer = castanetash_port(table.lend(), port, row.lend());
        given.expect(answer, expected, &name);
        table.expect_unchanged(&name);
        expect_written(answer, &row, written, &name);
    };
    for cells in unsound() {
        for room in 0..20 {
            call(&cells, 0, room, NOT_SOUND, &[]);
            call(&cells, 99, room, NOT_SOUND, &[]);
        }
    }
    // The other cells are zeros.
    let list = [5, 0x10, 0x21, 0x30, 0x1F, 0x20];
    for (port, start, list) in [
        (0, &[1, 0x26, 0, 0, 2, 1, 0, 10, 1, 1, 0, 10, 1, 301][..], &[][..]),
        (1, &[1, 0x26], &[]),
        (2, &[1, 0x26, 0, 0, 0, 0, 0, 0, 0, 1, 3, 1, 0, 0], &[]),
        (5, &[2, 0x26, 16], &[]),
        (6, &[1, 0x25, 0, 0, 3, 2, 0, 0, 0, 2, 0, 0, 0, 301, 15], &list),
        (16, &[3, 0x27, 4, 5], &[]),
        // An absent port is no refusal.
        (99, &[], &[]),
    ] {
        let mut row = [0; PORT_CELLS];
        row[..start.len()].copy_from_slice(start);
        for cell in [15, 32] {
            row[cell..][..list.len()].copy_from_slice(list);
        }
        for room in 0..PORT_CELLS {
            call(&table(), port, room, BAD_ROW, &[]);
        }
        for room in PORT_CELLS..PORT_CELLS + 10 {
            call(&table(), port, room, PORT_CELLS as u64, &row);
        }
    }
    given.expect_all("castanetash_port", &[0, 9, 255]);
}

#[test]
fn format() {
    let mut given = Given::default();
    let mut call = |cells: &[u32], port: u8, mode: u8, room: usize, expected: u64, written: &[u64]| {
        let name = format!("port {port}, mode {mode}, {room} cells; table {cells:X?}");
        let (mut table, mut row) = (Lent::holding(cells), Lent::filled(room));
        let answer = castanetash_format(table.lend(), port, mode, row.lend());
        given.expect(answer, expected, &name);
        table.expect_unchanged(&name);
        expect_written(answer, &row, written, &name);
    };
    for cells in unsound() {
        for room in 0..10 {
            call(&cells, 0, 0, room, NOT_SOUND, &[]);
            call(&cells, 99, 99, room, NOT_SOUND, &[]);
        }
    }
    for (port, mode, row) in [
        (0, 0, [1, 2, 1, 5, 1]),
        (3, 1, [1, 2, 3, 4, 2]),
        // A mode without a format, one that no port has, and an absent port are no refusals.
        (0, 1, [0; FORMAT_CELLS]),
        (0, 16, [0; FORMAT_CELLS]),
        (0, 255, [0; FORMAT_CELLS]),
        (99, 0, [0; FORMAT_CELLS]),
    ] {
        for room in 0..FORMAT_CELLS {
            call(&table(), port, mode, room, BAD_ROW, &[]);
        }
        for room in FORMAT_CELLS..FORMAT_CELLS + 10 {
            call(&table(), port, mode, room, FORMAT_CELLS as u64, &row);
        }
    }
    given.expect_all("castanetash_format", &[0, 9, 255]);
}

/// A log of three records: a value, one that is refused, and one that empties the table.
fn log() -> Vec<u8> {
    [
        log_record(1, Way::Up, &bytes(VALUE), 7),
        log_record(2, Way::Up, &bytes("05 00 45 01 00"), 7),
        log_record(3, Way::Up, &bytes("04 00 02 30"), 7),
    ]
    .concat()
}

/// A block's answer: the table, the first two totals and the text.
struct Block<'a> {
    table: &'a [u32],
    totals: [u64; 2],
    text: &'a str,
}

#[test]
fn read_block() {
    let mut given = Given::default();
    let mut call = |cells: &[u32], totals: &[u64], log: &[u8], room: usize, expected: u64, after: Block| {
        let name = format!(
            "totals {totals:?}, {} bytes of log, {room} bytes of text; table {cells:X?}",
            log.len()
        );
        let (mut table, mut totals) = (Lent::holding(cells), Lent::holding(totals));
        let (mut log, mut text) = (Lent::holding(log), Lent::filled(room));
        let answer = castanetash_read_block(table.lend(), totals.lend(), log.lend(), text.lend());
        given.expect(answer, expected, &name);
        log.expect_unchanged(&name);
        expect_written(answer, &table, after.table, &name);
        expect_written(answer, &totals, &after.totals, &name);
        expect_written(answer, &text, after.text.as_bytes(), &name);
    };
    let refused = || Block {
        table: &[],
        totals: [0; 2],
        text: "",
    };
    // 9 comes before the totals.
    for cells in unsound() {
        for totals in 0..4 {
            for room in [0, 2000] {
                call(&cells, &[0; 4][..totals], &log(), room, NOT_SOUND, refused());
                call(&cells, &[u64::MAX; 4][..totals], &[], room, NOT_SOUND, refused());
            }
        }
    }
    // Too few totals, with and without something to work through.
    for totals in 0..TOTALS_CELLS {
        for log in [log(), log()[..LOG_RECORD - 1].to_vec(), Vec::new()] {
            for room in [0, LINE_ROOM - 1, LINE_ROOM, 2000] {
                call(&table(), &[5; 2][..totals], &log, room, BAD_ROW, refused());
            }
        }
    }
    // Accepted: as many records as there is room for, with totals and text that have more.
    let lines = ["11 0 0 0 2 301 5 -3\n", "12 14\n", "13 0\n"];
    let first = lines[0].len();
    for more in 0..3 {
        let totals = [10, 4, 8, 9];
        let totals = &totals[..2 + more];
        for (records, last_piece, room) in [
            (0, 0, 0),
            (0, 0, LINE_ROOM - 1),
            (1, 0, LINE_ROOM),
            (1, 0, LINE_ROOM + first - 1),
            (2, 0, LINE_ROOM + first),
            (3, 0, LINE_ROOM + first + 6),
            (3, 0, 3000),
            // What isn't a whole record is left.
            (3, 1, 3000),
            (3, LOG_RECORD - 1, 3000),
        ] {
            let mut log = log();
            log.extend(vec![0xFF; last_piece]);
            let text = lines[..records].concat();
            let table_after = if records == 3 { vec![0; TABLE_CELLS] } else { table() };
            let after = Block {
                table: &table_after,
                totals: [10 + records as u64, if records >= 2 { 5 } else { 4 }],
                text: &text,
            };
            call(&table(), totals, &log, room, text.len() as u64, after);
        }
    }
    // No log, or less than a record.
    for length in [0, 1, LOG_RECORD - 1] {
        let after = Block {
            table: &table(),
            totals: [1, 1],
            text: "",
        };
        call(&table(), &[1, 1], &log()[..length], 2000, 0, after);
    }
    // A total that can count no more is no refusal.
    for totals in [[u64::MAX, 0], [0, u64::MAX], [u64::MAX; 2]] {
        let after = Block {
            table: &table(),
            totals,
            text: "",
        };
        call(&table(), &totals, &log(), 2000, 0, after);
    }
    given.expect_all("castanetash_read_block", &[0, 9, 255]);
}
