//! Reads several modes of a colour sensor in one message: writes the list of modes and datasets that the sensor is asked
//! for, and prints the values that the hub sends by it. Values with a pointer outside the hub's answer are refused.

#[path = "../include/castanetash.rs"]
mod castanetash;

use std::process::ExitCode;

use castanetash::{dataset_cell, form, mode_datasets, refused, row, Refused};
use castanetash::{DATASET_CELLS, DOWN, LONGEST, MOST_DATASETS, ROW_CELLS, TABLE_CELLS, UP};

/// The sensor's port, and the number of the experiment that asks for the list.
const COLOUR_SENSOR: u64 = 2;
const EXPERIMENT: u16 = 301;

/// What goes up before.
const ENTRIES: [&[u8]; 3] = [
    // A colour sensor is attached to port 2.
    b"\x0F\x00\x04\x02\x01\x25\x00\x00\x00\x00\x10\x00\x00\x00\x10",
    // Mode 0, the colour, is one number of 8 bits; mode 6, red, green and blue, three of 16 bits.
    b"\x0A\x00\x44\x02\x00\x80\x01\x00\x03\x00",
    b"\x0A\x00\x44\x02\x06\x80\x03\x01\x05\x00",
];

/// The list: dataset 0 of mode 0, then datasets 0 and 2 of mode 6, red and blue.
const LIST: [u8; 3] = [0x00, 0x60, 0x62];

/// The hub answers with a pointer to each entry.
const ANSWERED: &[u8] = b"\x07\x00\x48\x02\x80\x07\x00";

/// Its values: colour 3, red 50 and blue 205; and blue alone.
const VALUES: [&[u8]; 2] = [
    b"\x0B\x00\x46\x02\x07\x00\x03\x32\x00\xCD\x00",
    b"\x08\x00\x46\x02\x04\x00\xD2\x00",
];

/// With a pointer to a fourth entry, which there is not.
const OUTSIDE: &[u8] = b"\x09\x00\x46\x02\x09\x00\x03\x28\x00";

/// Writes what asks the sensor for the list, shows its bytes, and offers it to the table. If that accepts it, it may be
/// sent.
fn ask(table: &mut [u32]) -> Result<(), Refused> {
    let mut cells = [0; ROW_CELLS];
    cells[row::FORM] = form::MODE_DATASETS;
    cells[mode_datasets::PORT] = COLOUR_SENSOR;
    cells[mode_datasets::SUB] = 1;
    cells[mode_datasets::COMBINATION] = 0;
    let mut message = [0; LONGEST];
    let length = castanetash::write(&cells, DOWN, &LIST, &mut message)?;
    let message = &message[..length];
    let bytes: Vec<String> = message.iter().map(|byte| format!("{byte:02X}")).collect();
    println!("written: {}", bytes.join(" "));
    castanetash::offer(table, message, DOWN, EXPERIMENT)?;
    Ok(())
}

/// Prints the datasets of combined values, each with its own mode.
fn print_values(table: &[u32], message: &[u8]) -> Result<(), Refused> {
    let mut rows = [0; MOST_DATASETS * DATASET_CELLS];
    let datasets = castanetash::values(table, message, UP, &mut rows)?;
    for row in rows.chunks_exact(DATASET_CELLS).take(datasets) {
        println!(
            "port {}, mode {}, state {}, experiment {}: {}",
            row[dataset_cell::PORT],
            row[dataset_cell::MODE],
            row[dataset_cell::STATE],
            row[dataset_cell::EXPERIMENT],
            row[dataset_cell::VALUE] as i64
        );
    }
    Ok(())
}

fn read_sensor() -> Result<(), Refused> {
    let mut table = [0; TABLE_CELLS];
    castanetash::empty(&mut table)?;
    for message in ENTRIES {
        castanetash::offer(&mut table, message, UP, EXPERIMENT)?;
    }
    ask(&mut table)?;
    castanetash::offer(&mut table, ANSWERED, UP, EXPERIMENT)?;
    for message in VALUES {
        print_values(&table, message)?;
    }
    // The hub's answer has no pointer to a fourth entry.
    match print_values(&table, OUTSIDE) {
        Err(refusal) if refusal.number == refused::POINTERS => println!("{refusal}"),
        answer => answer?,
    }
    Ok(())
}

fn main() -> ExitCode {
    match read_sensor() {
        Ok(()) => ExitCode::SUCCESS,
        Err(refused) => {
            println!("{refused}");
            ExitCode::FAILURE
        }
    }
}
