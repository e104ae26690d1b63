//! The product's functions with slices. Those that they only look at are lent as such that may change where a test has to
//! see that they don't.

use yardstick::{Row, Way};

use crate::castanetash::{raw, ROW_CELLS};
use crate::lent::cell_filling;

/// The product's reading of one message. Way 0 is down, any other up.
#[allow(unsafe_code)]
pub fn castanetash_read(message: &[u8], way: u8, row: &mut [u64]) -> u64 {
    // SAFETY: each pointer comes from a slice of the length passed with it; the callee keeps neither pointer, reads
    // only the message and writes only the row.
    unsafe { raw::castanetash_read(message.as_ptr(), message.len(), way, row.as_mut_ptr(), row.len()) }
}

/// The cells of a row, and two more, beforehand.
const FILLING: [u64; ROW_CELLS + 2] = {
    let mut filling = [0; ROW_CELLS + 2];
    let mut place = 0;
    while place < filling.len() {
        filling[place] = cell_filling(place);
        place += 1;
    }
    filling
};

/// The product's answer to one message: its row, or a refusal, which has to leave all cells alone.
pub fn read(way: Way, message: &[u8]) -> Result<Row, u64> {
    let mut cells = FILLING;
    let answer = castanetash_read(message, way_byte(way), &mut cells);
    if answer == ROW_CELLS as u64 {
        assert_eq!(cells[ROW_CELLS..], FILLING[ROW_CELLS..], "the cells past a row");
        Ok(*cells.first_chunk().expect("as many cells as a row has"))
    } else {
        assert_eq!(cells, FILLING, "a refused reading changes nothing");
        Err(answer)
    }
}

/// The product's writing of one message. Way 0 is down, any other up.
#[allow(unsafe_code)]
pub fn castanetash_write(row: &[u64], way: u8, open: &[u8], out: &mut [u8]) -> u64 {
    // SAFETY: each pointer comes from a slice of the length passed with it; the callee keeps none of the pointers,
    // reads only the row and the open bytes and writes only the output.
    unsafe {
        raw::castanetash_write(
            row.as_ptr(),
            row.len(),
            way,
            open.as_ptr(),
            open.len(),
            out.as_mut_ptr(),
            out.len(),
        )
    }
}

/// The product's answer to one message to be written.
pub fn write(way: Way, row: &[u64], open: &[u8], out: &mut [u8]) -> u64 {
    castanetash_write(row, way_byte(way), open, out)
}

/// Makes a table an empty one.
#[allow(unsafe_code)]
pub fn castanetash_empty(table: &mut [u32]) -> u64 {
    // SAFETY: the pointer comes from a slice of the length passed with it, and the callee doesn't keep it.
    unsafe { raw::castanetash_empty(table.as_mut_ptr(), table.len()) }
}

/// Offers a message with its experiment number to a table. Way 0 is down, any other up.
#[allow(unsafe_code)]
pub fn castanetash_offer(table: &mut [u32], message: &[u8], way: u8, experiment: u16) -> u64 {
    // SAFETY: each pointer comes from a slice of the length passed with it; the callee keeps neither pointer, reads
    // only the table and the message and writes only the table.
    unsafe {
        raw::castanetash_offer(
            table.as_mut_ptr(),
            table.len(),
            message.as_ptr(),
            message.len(),
            way,
            experiment,
        )
    }
}

/// Hands out a dataset. Way 0 is down, any other up.
#[allow(unsafe_code)]
pub fn castanetash_dataset(table: &mut [u32], message: &[u8], way: u8, number: usize, row: &mut [u64]) -> u64 {
    // SAFETY: each pointer comes from a slice of the length passed with it; the callee keeps none of the pointers,
    // reads only the table and the message and writes only the row.
    unsafe {
        raw::castanetash_dataset(
            table.as_mut_ptr(),
            table.len(),
            message.as_ptr(),
            message.len(),
            way,
            number,
            row.as_mut_ptr(),
            row.len(),
        )
    }
}

/// Hands out all datasets of a value. Way 0 is down, any other up.
#[allow(unsafe_code)]
pub fn castanetash_values(table: &mut [u32], message: &[u8], way: u8, rows: &mut [u64]) -> u64 {
    // SAFETY: each pointer comes from a slice of the length passed with it; the callee keeps none of the pointers,
    // reads only the table and the message and writes only the rows.
    unsafe {
        raw::castanetash_values(
            table.as_mut_ptr(),
            table.len(),
            message.as_ptr(),
            message.len(),
            way,
            rows.as_mut_ptr(),
            rows.len(),
        )
    }
}

/// The ports of a table.
#[allow(unsafe_code)]
pub fn castanetash_ports(table: &mut [u32], ports: &mut [u8]) -> u64 {
    // SAFETY: each pointer comes from a slice of the length passed with it; the callee keeps neither pointer, reads
    // only the table and writes only the ports.
    unsafe { raw::castanetash_ports(table.as_mut_ptr(), table.len(), ports.as_mut_ptr(), ports.len()) }
}

/// What a table holds about a port.
#[allow(unsafe_code)]
pub fn castanetash_port(table: &mut [u32], port: u8, row: &mut [u64]) -> u64 {
    // SAFETY: each pointer comes from a slice of the length passed with it; the callee keeps neither pointer, reads
    // only the table and writes only the row.
    unsafe { raw::castanetash_port(table.as_mut_ptr(), table.len(), port, row.as_mut_ptr(), row.len()) }
}

/// The format of a port's mode.
#[allow(unsafe_code)]
pub fn castanetash_format(table: &mut [u32], port: u8, mode: u8, row: &mut [u64]) -> u64 {
    // SAFETY: each pointer comes from a slice of the length passed with it; the callee keeps neither pointer, reads
    // only the table and writes only the row.
    unsafe { raw::castanetash_format(table.as_mut_ptr(), table.len(), port, mode, row.as_mut_ptr(), row.len()) }
}

/// Works through a block of a log.
#[allow(unsafe_code)]
pub fn castanetash_read_block(table: &mut [u32], totals: &mut [u64], log: &[u8], text: &mut [u8]) -> u64 {
    // SAFETY: each pointer comes from a slice of the length passed with it; the callee keeps none of the pointers,
    // reads only the table, the totals and the log and writes only the table, the totals and the text.
    unsafe {
        raw::castanetash_read_block(
            table.as_mut_ptr(),
            table.len(),
            totals.as_mut_ptr(),
            totals.len(),
            log.as_ptr(),
            log.len(),
            text.as_mut_ptr(),
            text.len(),
        )
    }
}

/// A way as the product is told it.
pub fn way_byte(way: Way) -> u8 {
    match way {
        Way::Down => 0,
        Way::Up => 1,
    }
}
