//! Drives two motors together: joins them in a virtual port, writes a command for it, and prints the hub's feedback. The
//! same command to one of the motors is refused.

#[path = "../include/castanetash.rs"]
mod castanetash;

use std::process::ExitCode;

use castanetash::{form, goto_absolute_positions, refused, row, Refused, DOWN, LONGEST, ROW_CELLS, TABLE_CELLS, UP};

/// The ports of the first motor and of both.
const MOTOR_A: u8 = 0;
const BOTH: u8 = 16;

/// Way and message.
const ENTRIES: [(u8, &[u8]); 4] = [
    // Motors are attached to ports 0 and 1.
    (UP, b"\x0F\x00\x04\x00\x01\x26\x00\x00\x00\x00\x10\x00\x00\x00\x10"),
    (UP, b"\x0F\x00\x04\x01\x01\x26\x00\x00\x00\x00\x10\x00\x00\x00\x10"),
    // The client asks to join them, and the hub attaches port 16 for both.
    (DOWN, b"\x06\x00\x61\x01\x00\x01"),
    (UP, b"\x09\x00\x04\x10\x02\x26\x00\x00\x01"),
];

/// The hub's feedback: the command is in progress; then it is completed, and both motors are idle.
const FEEDBACK: [&[u8]; 2] = [b"\x05\x00\x82\x10\x01", b"\x09\x00\x82\x10\x0A\x00\x08\x01\x08"];

/// Writes a command that brings the first motor of a port to 90 degrees and the second to -90, shows its bytes, and
/// offers it to the table. If that accepts it, it may be sent.
fn go(table: &mut [u32], port: u8) -> Result<(), Refused> {
    let mut cells = [0; ROW_CELLS];
    cells[row::FORM] = form::GOTO_ABSOLUTE_POSITIONS;
    cells[goto_absolute_positions::PORT] = port.into();
    cells[goto_absolute_positions::START] = 16 + 1; // at once, and with feedback
    cells[goto_absolute_positions::SUB] = 14;
    cells[goto_absolute_positions::POSITION_1] = 90;
    cells[goto_absolute_positions::POSITION_2] = -90_i64 as u64;
    cells[goto_absolute_positions::SPEED] = 50;
    cells[goto_absolute_positions::POWER] = 100;
    cells[goto_absolute_positions::END_STATE] = 126; // hold
    cells[goto_absolute_positions::PROFILE] = 1 + 2; // both
    let mut message = [0; LONGEST];
    let length = castanetash::write(&cells, DOWN, &[], &mut message)?;
    let message = &message[..length];
    let bytes: Vec<String> = message.iter().map(|byte| format!("{byte:02X}")).collect();
    println!("written: {}", bytes.join(" "));
    castanetash::offer(table, message, DOWN, 0)?;
    Ok(())
}

/// Offers feedback to the table, reads it, and prints port and bits of each pair.
fn print_feedback(table: &mut [u32], message: &[u8]) -> Result<(), Refused> {
    castanetash::offer(table, message, UP, 0)?;
    let mut cells = [0; ROW_CELLS];
    castanetash::read(message, UP, &mut cells)?;
    assert_eq!(cells[row::FORM], form::OUTPUT_FEEDBACK);
    let pairs = &message[cells[row::OPEN_START] as usize..][..cells[row::OPEN_COUNT] as usize];
    for pair in pairs.chunks_exact(2) {
        println!("port {}: feedback {}", pair[0], pair[1]);
    }
    Ok(())
}

fn drive() -> Result<(), Refused> {
    let mut table = [0; TABLE_CELLS];
    castanetash::empty(&mut table)?;
    for (way, message) in ENTRIES {
        castanetash::offer(&mut table, message, way, 0)?;
    }
    go(&mut table, BOTH)?;
    for message in FEEDBACK {
        print_feedback(&mut table, message)?;
    }
    // Motor A alone has no second position.
    match go(&mut table, MOTOR_A) {
        Err(refusal) if refusal.number == refused::NOT_VIRTUAL => println!("{refusal}"),
        answer => answer?,
    }
    Ok(())
}

fn main() -> ExitCode {
    match drive() {
        Ok(()) => ExitCode::SUCCESS,
        Err(refused) => {
            println!("{refused}");
            ExitCode::FAILURE
        }
    }
}
