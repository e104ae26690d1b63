//! Follows the messages of a hub in a port table, and prints its values, each with the mode that it was sent in and the
//! experiment that asked for it. At the end it prints what is known of each port.

#[path = "../include/castanetash.rs"]
mod castanetash;

use std::process::ExitCode;

use castanetash::{dataset_cell, dataset_kind, format_cell, port_cell, refused, Refused, DOWN, UP};
use castanetash::{DATASET_CELLS, FORMAT_CELLS, MOST_DATASETS, MOST_PORTS, PORT_CELLS, TABLE_CELLS};

/// Way, experiment number and message.
const ENTRIES: [(u8, u16, &[u8]); 15] = [
    // A motor is attached to port 0. Its modes 1, speed, and 2, position, have one number of 32 bits.
    (UP, 0, b"\x0F\x00\x04\x00\x01\x26\x00\x00\x00\x00\x10\x00\x00\x00\x10"),
    (UP, 0, b"\x0A\x00\x44\x00\x01\x80\x01\x02\x04\x00"),
    (UP, 0, b"\x0A\x00\x44\x00\x02\x80\x01\x02\x04\x00"),
    // A value is refused: the hub has not said yet in which mode it is.
    (UP, 0, b"\x08\x00\x45\x00\x00\x00\x00\x00"),
    // Experiment 301 asks for speeds, and the hub answers.
    (DOWN, 301, b"\x0A\x00\x41\x00\x01\x01\x00\x00\x00\x01"),
    (UP, 0, b"\x0A\x00\x47\x00\x01\x01\x00\x00\x00\x01"),
    (UP, 0, b"\x08\x00\x45\x00\x5A\x02\x00\x00"),
    // Experiment 302 asks for positions. Until the hub answers, it still sends speeds.
    (DOWN, 302, b"\x0A\x00\x41\x00\x02\x01\x00\x00\x00\x01"),
    (UP, 0, b"\x08\x00\x45\x00\x56\x02\x00\x00"),
    (UP, 0, b"\x0A\x00\x47\x00\x02\x01\x00\x00\x00\x01"),
    (UP, 0, b"\x08\x00\x45\x00\xFD\xFF\xFF\xFF"),
    // A load cell is attached to port 3. It sends two floats in mode 0, which nobody asked for.
    (UP, 0, b"\x0F\x00\x04\x03\x01\x15\x00\x00\x00\x00\x10\x00\x00\x00\x10"),
    (UP, 0, b"\x0A\x00\x44\x03\x00\x80\x02\x03\x04\x02"),
    (UP, 0, b"\x0A\x00\x47\x03\x00\x01\x00\x00\x00\x01"),
    (UP, 0, b"\x0C\x00\x45\x03\x00\x00\xB0\x40\x00\x00\x80\xBE"),
];

/// A port table for one hub.
struct Table([u32; TABLE_CELLS]);

impl Table {
    fn empty() -> Result<Table, Refused> {
        let mut table = [0; TABLE_CELLS];
        castanetash::empty(&mut table)?;
        Ok(Table(table))
    }

    /// Prints a value, which changes no table; any other message is offered to the table.
    fn follow(&mut self, way: u8, experiment: u16, message: &[u8]) -> Result<(), Refused> {
        let mut rows = [0; MOST_DATASETS * DATASET_CELLS];
        match castanetash::values(&self.0, message, way, &mut rows) {
            Ok(datasets) => print_value(&rows[..datasets * DATASET_CELLS]),
            // Good, but no value.
            Err(refused) if refused.number == refused::NO_DATASET => {
                castanetash::offer(&mut self.0, message, way, experiment)?;
            }
            Err(refused) => return Err(refused),
        }
        Ok(())
    }

    /// Prints what is known of each port, and of the mode that it is in.
    fn print_ports(&self) -> Result<(), Refused> {
        let mut ports = [0; MOST_PORTS];
        let count = castanetash::ports(&self.0, &mut ports)?;
        for &port in &ports[..count] {
            let (mut row, mut format) = ([0; PORT_CELLS], [0; FORMAT_CELLS]);
            castanetash::port(&self.0, port, &mut row)?;
            let (device, mode) = (row[port_cell::DEVICE], row[port_cell::ANSWERED_MODE]);
            castanetash::format(&self.0, port, mode as u8, &mut format)?;
            let (datasets, kind) = (format[format_cell::DATASETS], format[format_cell::KIND]);
            println!("port {port}: device {device}, mode {mode}, datasets {datasets}, kind {kind}");
        }
        Ok(())
    }
}

/// Prints the datasets of a value.
fn print_value(rows: &[u64]) {
    print!(
        "port {}, mode {}, state {}, experiment {}:",
        rows[dataset_cell::PORT],
        rows[dataset_cell::MODE],
        rows[dataset_cell::STATE],
        rows[dataset_cell::EXPERIMENT]
    );
    for row in rows.chunks_exact(DATASET_CELLS) {
        match (row[dataset_cell::KIND], row[dataset_cell::VALUE]) {
            (dataset_kind::FLOAT, value) => print!(" {}", f32::from_bits(value as u32)),
            (_, value) => print!(" {}", value as i64),
        }
    }
    println!();
}

fn follow_all() -> Result<(), Refused> {
    let mut table = Table::empty()?;
    let mut refused = 0;
    for (way, experiment, message) in ENTRIES {
        if let Err(refusal) = table.follow(way, experiment, message) {
            println!("{refusal}");
            refused += 1;
        }
    }
    table.print_ports()?;
    println!("refused: {refused}");
    Ok(())
}

fn main() -> ExitCode {
    match follow_all() {
        Ok(()) => ExitCode::SUCCESS,
        Err(refused) => {
            println!("{refused}");
            ExitCode::FAILURE
        }
    }
}
