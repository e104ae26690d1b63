//! Writes two messages to the hub, shows their bytes and reads them back. Three more are refused.

#[path = "../include/castanetash.rs"]
mod castanetash;

use std::process::ExitCode;

use castanetash::{form, input_format_setup, property_text, row, Refused, DOWN, LONGEST, ROW_CELLS};

type Row = [u64; ROW_CELLS];

/// Writes the message of a row with its open bytes, shows it, and reads it back into the row. Gives the message.
fn write_and_read(row: &mut Row, open: &[u8]) -> Result<Vec<u8>, Refused> {
    let mut message = vec![0; LONGEST];
    let length = castanetash::write(row, DOWN, open, &mut message)?;
    message.truncate(length);
    print!("written:");
    for byte in &message {
        print!(" {byte:02X}");
    }
    println!();
    castanetash::read(&message, DOWN, row)?;
    Ok(message)
}

fn both() -> Result<(), Refused> {
    // Port Input Format Setup (Single), 41. It has no open bytes.
    let mut setup = [0; ROW_CELLS];
    setup[row::FORM] = form::INPUT_FORMAT_SETUP;
    setup[input_format_setup::PORT] = 0;
    setup[input_format_setup::MODE] = 2;
    setup[input_format_setup::DELTA] = 1;
    setup[input_format_setup::NOTIFY] = 1;
    write_and_read(&mut setup, &[])?;
    let (port, mode) = (setup[input_format_setup::PORT], setup[input_format_setup::MODE]);
    println!("read: port {port}, mode {mode}");

    // Hub Properties, 01: sets the hub's name, which is open bytes.
    let mut name = [0; ROW_CELLS];
    name[row::FORM] = form::PROPERTY_TEXT;
    name[property_text::PROPERTY] = 1;
    name[property_text::OPERATION] = 1;
    let message = write_and_read(&mut name, b"Bench 7")?;
    let (start, count) = (name[row::OPEN_START] as usize, name[row::OPEN_COUNT] as usize);
    println!("read: name {}", String::from_utf8_lossy(&message[start..][..count]));

    // No mode is over 15.
    setup[input_format_setup::MODE] = 300;
    if let Err(refused) = write_and_read(&mut setup, &[]) {
        println!("{refused}");
    }

    // A name has a byte or more. The refusal says the smallest size of such a message.
    if let Err(refused) = write_and_read(&mut name, &[]) {
        println!("{refused}");
    }

    // Lock Status Request, 12, is read only.
    let mut lock = [0; ROW_CELLS];
    lock[row::FORM] = form::LOCK_STATUS_REQUEST;
    if let Err(refused) = write_and_read(&mut lock, &[]) {
        println!("{refused}");
    }
    Ok(())
}

fn main() -> ExitCode {
    match both() {
        Ok(()) => ExitCode::SUCCESS,
        Err(refused) => {
            println!("{refused}");
            ExitCode::FAILURE
        }
    }
}
