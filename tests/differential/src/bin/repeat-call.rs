//! Calls one function of the product again and again, so that its instructions can be counted:
//!
//!     repeat-call CALL TABLE COUNT
//!
//! CALL is none, read, write, offer, values, values-16, combined-1, combined-16, dataset, ports, port or format. TABLE is
//! empty, six (ports, three formats each) or full (sixteen ports, four of them virtual, and the formats of all sixteen
//! modes). At the ports of a table mode 1 is answered, of two datasets of two bytes; at the second port of a full one
//! mode 15, of sixteen floats. The third port of a full one is combined, with the datasets of mode 15 as its list.

use std::env;
use std::process::exit;

use differential::castanetash::{
    dataset, empty, format, offer, port, ports, read, values, write, DATASET_CELLS, DOWN, FORMAT_CELLS, LONGEST,
    MOST_DATASETS, MOST_PORTS, PORT_CELLS, ROW_CELLS, TABLE_CELLS, UP,
};

/// Offers a message that the table accepts.
fn accept(table: &mut [u32], way: u8, message: &[u8]) {
    if let Err(refused) = offer(table, message, way, 7) {
        panic!("{message:02X?}: {refused:?}");
    }
}

fn attach(table: &mut [u32], port: u8) {
    accept(
        table,
        UP,
        &[15, 0, 0x04, port, 1, 0x26, 0, 0, 0, 0, 0x10, 0, 0, 0, 0x10],
    );
}

/// Asks a port for a mode, and answers so.
fn ask(table: &mut [u32], port: u8, mode: u8) {
    accept(table, DOWN, &[10, 0, 0x41, port, mode, 1, 0, 0, 0, 1]);
    accept(table, UP, &[10, 0, 0x47, port, mode, 1, 0, 0, 0, 1]);
}

/// Formats of the first so many modes, and mode 1.
fn set_up(table: &mut [u32], port: u8, modes: u8) {
    for mode in 0..modes {
        accept(table, UP, &[10, 0, 0x44, port, mode, 0x80, 1 + mode, mode % 4, 4, 0]);
    }
    ask(table, port, 1);
}

fn make(name: &str) -> [u32; TABLE_CELLS] {
    let mut table = [0; TABLE_CELLS];
    empty(&mut table).expect("a table's number of cells");
    match name {
        "empty" => {}
        "six" => {
            for port in 0..6 {
                attach(&mut table, port);
                set_up(&mut table, port, 3);
            }
        }
        "full" => {
            for port in 0..12 {
                attach(&mut table, port);
                set_up(&mut table, port, 16);
            }
            for pair in 0..4 {
                let (port, a, b) = (50 + pair, 2 * pair, 2 * pair + 1);
                accept(&mut table, UP, &[9, 0, 0x04, port, 2, 0x26, 0, a, b]);
                set_up(&mut table, port, 16);
            }
            ask(&mut table, 1, 15);
            let mut list = vec![22, 0, 0x42, 2, 1, 0];
            list.extend(0xF0..=0xFF);
            accept(&mut table, DOWN, &list);
            accept(&mut table, UP, &[7, 0, 0x48, 2, 0, 0xFF, 0xFF]);
        }
        _ => usage(),
    }
    table
}

fn usage() -> ! {
    eprintln!("repeat-call CALL TABLE COUNT");
    exit(2)
}

const CALLS: [&str; 12] = [
    "none",
    "read",
    "write",
    "offer",
    "values",
    "values-16",
    "combined-1",
    "combined-16",
    "dataset",
    "ports",
    "port",
    "format",
];

fn main() {
    let words: Vec<String> = env::args().skip(1).collect();
    let [call, table, count] = words.as_slice() else {
        usage()
    };
    let Ok(count) = count.parse::<u32>() else { usage() };
    let Some(call) = CALLS.iter().position(|name| name == call) else {
        usage()
    };
    let mut table = make(table);
    let setup = [10, 0, 0x47, 0, 1, 1, 0, 0, 0, 1];
    let value = [8, 0, 0x45, 0, 0xFD, 0xFF, 5, 0];
    let mut long_value = [0; 68];
    long_value[..4].copy_from_slice(&[68, 0, 0x45, 1]);
    let combined = [10, 0, 0x46, 2, 1, 0, 0, 0, 0, 0];
    let mut long_combined = [0; 70];
    long_combined[..6].copy_from_slice(&[70, 0, 0x46, 2, 0xFF, 0xFF]);
    let mut row = [0; ROW_CELLS];
    read(&setup, UP, &mut row).expect("a message");
    let mut out = [0; LONGEST];
    let mut rows = [0; MOST_DATASETS * DATASET_CELLS];
    let mut listed = [0; MOST_PORTS];
    let mut sum = 0;
    for _ in 0..count {
        let answer = match call {
            0 => Ok(0),
            1 => read(&setup, UP, &mut row),
            2 => write(&row, UP, &[], &mut out),
            3 => offer(&mut table, &setup, UP, 7),
            4 => values(&table, &value, UP, &mut rows),
            5 => values(&table, &long_value, UP, &mut rows),
            6 => values(&table, &combined, UP, &mut rows),
            7 => values(&table, &long_combined, UP, &mut rows),
            8 => dataset(&table, &value, UP, 1, &mut rows[..DATASET_CELLS]),
            9 => ports(&table, &mut listed),
            10 => port(&table, 0, &mut rows[..PORT_CELLS]),
            _ => format(&table, 0, 1, &mut rows[..FORMAT_CELLS]),
        };
        sum += answer.unwrap_or_else(|refused| refused.number as usize);
    }
    println!("{sum}");
}
