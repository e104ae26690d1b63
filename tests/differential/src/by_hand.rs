//! Reading and writing by both programs, held to answers that a test has written out by hand.

use yardstick::{decode, write_row, Row, Way};

use crate::answer::refused;
use crate::castanetash::ROW_CELLS;
use crate::lent::Lent;
use crate::product::{castanetash_read, castanetash_write, way_byte};

/// An answer that refuses.
pub const fn refusal(number: u64, place: usize) -> u64 {
    number << 32 | place as u64
}

/// How often calls were accepted, and how often refused with each number.
pub struct Given([u64; 256]);

impl Default for Given {
    fn default() -> Given {
        Given([0; 256])
    }
}

impl Given {
    /// Counts an answer.
    pub fn count<T>(&mut self, answer: &Result<T, u64>) {
        let number = answer.as_ref().err().map_or(0, |answer| answer >> 32);
        self.0[number as usize] += 1;
    }

    /// Adds what was counted elsewhere.
    pub fn add(&mut self, other: &Given) {
        for (count, more) in self.0.iter_mut().zip(other.0) {
            *count += more;
        }
    }

    /// How often each number came, 0 for acceptance.
    pub fn seen(&self) -> &[u64; 256] {
        &self.0
    }

    /// How many answers there were.
    pub fn calls(&self) -> u64 {
        self.0.iter().sum()
    }

    /// Prints the counts, and panics unless these numbers came, 0 for acceptance, and no others.
    pub fn expect(&self, name: &str, numbers: &[usize]) {
        let seen: Vec<(usize, u64)> = self.0.iter().copied().enumerate().filter(|it| it.1 > 0).collect();
        println!("{name}: {} calls, by answer {seen:?}", self.calls());
        assert!(seen.iter().map(|it| &it.0).eq(numbers), "{name}: {seen:?}");
    }
}

/// Reads a message by both programs. Nothing that is lent changes but the row of an accepted one.
#[track_caller]
pub fn expect_read(given: &mut Given, way: Way, message: &[u8], expected: Result<Row, u64>) {
    let name = || format!("{message:02X?} {way:?}");
    let (mut lent, mut row) = (Lent::holding(message), Lent::filled(ROW_CELLS + 2));
    let answer = castanetash_read(lent.lend(), way_byte(way), row.lend());
    lent.expect_unchanged("a message that is read");
    match expected {
        Ok(cells) => {
            assert_eq!(answer, ROW_CELLS as u64, "{}", name());
            row.expect(&cells, "a message's row");
        }
        Err(refusal) => {
            let [answer, refusal] = [answer, refusal].map(|it| [it >> 32, it & 0xFFFF_FFFF]);
            assert_eq!(answer, refusal, "{}", name());
            row.expect_unchanged("a refused message's row");
        }
    }
    let by_second = decode(way, message).map(|it| it.row()).map_err(refused);
    assert_eq!(by_second, expected, "{}, second program", name());
    given.count(&expected);
}

/// Writes a row by both programs. Nothing that is lent changes but the start of the output of an accepted one.
#[track_caller]
pub fn expect_written(
    given: &mut Given,
    way: Way,
    row: &Row,
    open: &[u8],
    output: usize,
    expected: Result<&[u8], u64>,
) {
    let name = || format!("{row:X?} {way:?}, open bytes {open:02X?}, {output} bytes of output");
    let (mut cells, mut pairs) = (Lent::holding(row), Lent::holding(open));
    for by_product in [true, false] {
        let mut out = Lent::filled(output);
        let answer = if by_product {
            castanetash_write(cells.lend(), way_byte(way), pairs.lend(), out.lend())
        } else {
            match write_row(way, row, open, out.lend()) {
                Ok(length) => length as u64,
                Err(refusal) => refused(refusal),
            }
        };
        cells.expect_unchanged("a row that is written");
        pairs.expect_unchanged("open bytes that are written");
        match expected {
            Ok(message) => {
                assert_eq!(answer, message.len() as u64, "{}", name());
                out.expect(message, "a written message");
            }
            Err(refusal) => {
                let [answer, refusal] = [answer, refusal].map(|it| [it >> 32, it & 0xFFFF_FFFF]);
                assert_eq!(answer, refusal, "{}", name());
                out.expect_unchanged("the output of a refused message");
            }
        }
    }
    given.count(&expected);
}
