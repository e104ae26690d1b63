use yardstick::{Way, TABLE_CELLS};

use crate::answer::Filled;
use crate::castanetash::{DATASET_CELLS, FORMAT_CELLS, MOST_DATASETS, MOST_PORTS, PORT_CELLS};
use crate::lent::Lent;
use crate::product::{
    castanetash_dataset, castanetash_empty, castanetash_format, castanetash_offer, castanetash_port, castanetash_ports,
    castanetash_values, way_byte,
};

/// How many cells more than wanted are lent for an answer.
const MORE: usize = 3;

/// A table that is lent to the product. Every call has to leave what is beside it alone. All but those that may change
/// the table have to leave that alone too, and refused ones also what is lent for the answer.
#[derive(Clone)]
pub struct LentTable {
    cells: Lent<u32>,
}

impl LentTable {
    /// A table with these cells, which may be none of a table.
    pub fn new(cells: &[u32]) -> LentTable {
        LentTable {
            cells: Lent::holding(cells),
        }
    }

    /// A table that the product has made empty.
    pub fn empty() -> LentTable {
        let mut table = LentTable {
            cells: Lent::filled(TABLE_CELLS),
        };
        assert_eq!(table.make_empty(), 0, "a table is made empty");
        assert_eq!(table.cells(), [0; TABLE_CELLS], "an empty table");
        table
    }

    /// The table's cells.
    pub fn cells(&self) -> &[u32] {
        self.cells.contents()
    }

    /// Changes one cell.
    pub fn set(&mut self, cell: usize, content: u32) {
        let mut cells = self.cells().to_vec();
        cells[cell] = content;
        *self = LentTable::new(&cells);
    }

    /// Makes it an empty table. A refusal has to leave it alone.
    pub fn make_empty(&mut self) -> u64 {
        let answer = castanetash_empty(self.cells.lend());
        self.expect_change(answer, "made empty");
        answer
    }

    /// Offers a message with its experiment number. A refusal has to leave the table alone.
    pub fn offer(&mut self, way: Way, message: &[u8], experiment: u16) -> u64 {
        let answer = castanetash_offer(self.cells.lend(), message, way_byte(way), experiment);
        self.expect_change(answer, "offered to");
        answer
    }

    /// Hands out a dataset.
    pub fn dataset(&mut self, way: Way, message: &[u8], number: usize) -> Filled<DATASET_CELLS> {
        self.ask(|table, row| castanetash_dataset(table, message, way_byte(way), number, row))
    }

    /// Hands out all datasets of a value, with room for more than there may be.
    pub fn values(&mut self, way: Way, message: &[u8]) -> Result<Vec<u64>, u64> {
        self.values_in(way, message, MOST_DATASETS * DATASET_CELLS + MORE)
    }

    /// Hands out all datasets of a value in so many cells.
    pub fn values_in(&mut self, way: Way, message: &[u8], room: usize) -> Result<Vec<u64>, u64> {
        let mut rows = Lent::filled(room);
        let answer = castanetash_values(self.cells.lend(), message, way_byte(way), rows.lend());
        self.cells.expect_unchanged("a table is only looked at");
        if !(1..=MOST_DATASETS as u64).contains(&answer) {
            rows.expect_unchanged("a value is refused");
            return Err(answer);
        }
        let cells = rows.contents()[..answer as usize * DATASET_CELLS].to_vec();
        rows.expect(&cells, "the cells past the datasets");
        // No cell of a dataset is left as it was.
        let filling = Lent::<u64>::filled(room);
        assert!(cells
            .iter()
            .zip(filling.contents())
            .all(|(cell, filling)| cell != filling));
        Ok(cells)
    }

    /// The ports that are present.
    pub fn ports(&mut self) -> Result<Vec<u8>, u64> {
        let [first, second] = [0x00, 0xFF].map(|filling| {
            let mut ports = Lent::holding(&[filling; MOST_PORTS + MORE]);
            let answer = castanetash_ports(self.cells.lend(), ports.lend());
            self.cells.expect_unchanged("a table is only looked at");
            if answer > MOST_PORTS as u64 {
                ports.expect_unchanged("ports are refused");
                return Err(answer);
            }
            let present = ports.contents()[..answer as usize].to_vec();
            ports.expect(&present, "the bytes past the ports");
            Ok(present)
        });
        assert_eq!(first, second, "all ports are written, whatever stood there");
        first
    }

    /// What the table holds about a port.
    pub fn port(&mut self, port: u8) -> Filled<PORT_CELLS> {
        self.ask(|table, row| castanetash_port(table, port, row))
    }

    /// The format of a port's mode.
    pub fn format(&mut self, port: u8, mode: u8) -> Filled<FORMAT_CELLS> {
        self.ask(|table, row| castanetash_format(table, port, mode, row))
    }

    /// A call that fills N cells or refuses, and changes nothing else. Each cell holds something else beforehand.
    fn ask<const N: usize>(&mut self, call: impl FnOnce(&mut [u32], &mut [u64]) -> u64) -> Filled<N> {
        let mut row = Lent::filled(N + MORE);
        let answer = call(self.cells.lend(), row.lend());
        self.cells.expect_unchanged("a table is only looked at");
        if answer != N as u64 {
            row.expect_unchanged("a call is refused");
            return Err(answer);
        }
        let cells = *row.contents().first_chunk().expect("as many cells as it fills");
        row.expect(&cells, "the cells past the answer");
        Ok(cells)
    }

    /// After a call that may change the table, which then is as it is from here on.
    fn expect_change(&mut self, answer: u64, name: &str) {
        if answer == 0 {
            let cells = self.cells().to_vec();
            self.cells.expect(&cells, name);
            self.cells = Lent::holding(&cells);
        } else {
            self.cells.expect_unchanged(name);
        }
    }
}
