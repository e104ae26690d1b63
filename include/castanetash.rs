//! Castanetash for Rust: the functions of `libcastanetash.a`, and what they are called with. Take it into a program by
//!
//!     #[path = "include/castanetash.rs"]
//!     mod castanetash;
//!
//! The functions here take slices and answer a `Result`: how much was written, or the refusal. Those of `raw` are the
//! library's own. `castanetash.h` says of each call in which order its refusals come, what a table is and how a log is
//! laid out; the names here are those there. Every call ends with an answer, whatever it is lent, and a refused call
//! changes nothing.

#![allow(dead_code, unsafe_code)]

/// The way of a message: down to the hub, or up from it. Any other number is up too.
pub const DOWN: u8 = 0;
pub const UP: u8 = 1;

/// No message has more bytes.
pub const LONGEST: usize = 127;

/// How many cells a message's row, a table, and the rows of its answers have.
pub const ROW_CELLS: usize = 16;
pub const TABLE_CELLS: usize = 1008;
pub const DATASET_CELLS: usize = 6;
pub const PORT_CELLS: usize = 49;
pub const FORMAT_CELLS: usize = 5;
pub const TOTALS_CELLS: usize = 2;

/// The most datasets of a value, the most entries of a list, and the most ports of a table.
pub const MOST_DATASETS: usize = 16;
pub const MOST_ENTRIES: usize = 16;
pub const MOST_PORTS: usize = 16;

/// The bytes of a log's record, and the room that a record's line may want.
pub const RECORD: usize = 136;
pub const LINE_ROOM: usize = 462;

/// A refusal: its number, one of `refused`, and its place in the message, or the size that is wanted.
#[derive(Clone, Copy, Debug, PartialEq, Eq)]
pub struct Refused {
    pub number: u32,
    pub place: u32,
}

impl std::fmt::Display for Refused {
    fn fmt(&self, f: &mut std::fmt::Formatter) -> std::fmt::Result {
        write!(f, "refusal {}, place {}", self.number, self.place)
    }
}

impl std::error::Error for Refused {}

/// An answer of the library: the number of the refusal above its place, or how much was written.
pub fn answer(number: u64) -> Result<usize, Refused> {
    let (high, low) = ((number >> 32) as u32, number as u32);
    match high {
        0 => Ok(low as usize),
        number => Err(Refused { number, place: low }),
    }
}

// SAFETY, of every call below: each pointer comes from a slice of the length passed with it, and the library keeps none
// of them. It writes only to what is borrowed as mutable, which overlaps nothing else, and is defined for all contents.

/// Reads one message into the first 16 cells of a row: 16.
pub fn read(message: &[u8], way: u8, row: &mut [u64]) -> Result<usize, Refused> {
    answer(unsafe { raw::castanetash_read(message.as_ptr(), message.len(), way, row.as_mut_ptr(), row.len()) })
}

/// Writes the message of a row, with its open bytes, to the start of `out`: its length.
pub fn write(row: &[u64], way: u8, open: &[u8], out: &mut [u8]) -> Result<usize, Refused> {
    let (row, row_len) = (row.as_ptr(), row.len());
    let (out, out_len) = (out.as_mut_ptr(), out.len());
    answer(unsafe { raw::castanetash_write(row, row_len, way, open.as_ptr(), open.len(), out, out_len) })
}

/// Makes 1008 cells an empty table: 0.
pub fn empty(table: &mut [u32]) -> Result<usize, Refused> {
    answer(unsafe { raw::castanetash_empty(table.as_mut_ptr(), table.len()) })
}

/// Offers a message, with the number of its experiment, to a table, which changes as it says: 0. Two messages to
/// different ports, each a 41, 42, 44, 47 or 48, may be offered in either order.
pub fn offer(table: &mut [u32], message: &[u8], way: u8, experiment: u16) -> Result<usize, Refused> {
    let (table, table_len) = (table.as_mut_ptr(), table.len());
    answer(unsafe { raw::castanetash_offer(table, table_len, message.as_ptr(), message.len(), way, experiment) })
}

/// Reads one dataset of a value, numbered from 0, into the first 6 cells of a row: 6.
pub fn dataset(table: &[u32], message: &[u8], way: u8, number: usize, row: &mut [u64]) -> Result<usize, Refused> {
    let (table, table_len) = (table.as_ptr(), table.len());
    let (message, message_len) = (message.as_ptr(), message.len());
    let (row, row_len) = (row.as_mut_ptr(), row.len());
    answer(unsafe { raw::castanetash_dataset(table, table_len, message, message_len, way, number, row, row_len) })
}

/// Reads all datasets of a value, 6 cells each: how many datasets.
pub fn values(table: &[u32], message: &[u8], way: u8, rows: &mut [u64]) -> Result<usize, Refused> {
    let (table, table_len) = (table.as_ptr(), table.len());
    let (message, message_len) = (message.as_ptr(), message.len());
    let (rows, rows_len) = (rows.as_mut_ptr(), rows.len());
    answer(unsafe { raw::castanetash_values(table, table_len, message, message_len, way, rows, rows_len) })
}

/// The ports that are present, ascending: how many.
pub fn ports(table: &[u32], ports: &mut [u8]) -> Result<usize, Refused> {
    answer(unsafe { raw::castanetash_ports(table.as_ptr(), table.len(), ports.as_mut_ptr(), ports.len()) })
}

/// What a table knows of a port, in the first 49 cells of a row: 49.
pub fn port(table: &[u32], port: u8, row: &mut [u64]) -> Result<usize, Refused> {
    answer(unsafe { raw::castanetash_port(table.as_ptr(), table.len(), port, row.as_mut_ptr(), row.len()) })
}

/// What a table knows of a port's mode, in the first 5 cells of a row: 5.
pub fn format(table: &[u32], port: u8, mode: u8, row: &mut [u64]) -> Result<usize, Refused> {
    let (row, row_len) = (row.as_mut_ptr(), row.len());
    answer(unsafe { raw::castanetash_format(table.as_ptr(), table.len(), port, mode, row, row_len) })
}

/// Works through whole records of a log, and puts their lines to `text`: the bytes of text. What was taken of the log
/// is 136 bytes for each record that the totals have grown by.
pub fn read_block(table: &mut [u32], totals: &mut [u64], log: &[u8], text: &mut [u8]) -> Result<usize, Refused> {
    let (table, table_len) = (table.as_mut_ptr(), table.len());
    let (totals, totals_len) = (totals.as_mut_ptr(), totals.len());
    let (log, log_len) = (log.as_ptr(), log.len());
    let (text, text_len) = (text.as_mut_ptr(), text.len());
    answer(unsafe { raw::castanetash_read_block(table, table_len, totals, totals_len, log, log_len, text, text_len) })
}

/// The refusals. The place is 1 for 4, 2 for 5, that of the field's first byte for 7, else 0. That of a 6 is a size: the
/// smallest that the message's type and selectors allow, or that holds its selectors if they don't fit.
pub mod refused {
    /// The message has no bytes.
    pub const NO_BYTES: u32 = 1;
    /// Bit 7 of its length is set: it would be over 127.
    pub const TOO_LONG: u32 = 2;
    /// Its length is not the number of its bytes, or is under 3.
    pub const LENGTH: u32 = 3;
    /// Its hub id is not 0.
    pub const HUB_ID: u32 = 4;
    /// Its type is unknown, or doesn't go this way.
    pub const TYPE: u32 = 5;
    /// It is too short for its selectors, or has no size for them.
    pub const SIZE: u32 = 6;
    /// A field is outside its list.
    pub const FIELD: u32 = 7;
    /// The output is shorter than the message to be written.
    pub const OUTPUT: u32 = 8;
    /// The lent cells are no sound table.
    pub const TABLE: u32 = 9;
    /// A port named isn't present.
    pub const PORT_ABSENT: u32 = 10;
    /// An attached port is present already.
    pub const PORT_PRESENT: u32 = 11;
    /// A bad pair: a member is absent, virtual or joined already, or both are the same; or a port to be disconnected
    /// is not virtual.
    pub const PAIR: u32 = 12;
    /// Sixteen ports are present already.
    pub const TABLE_FULL: u32 = 13;
    /// A 45 of a port that has no mode: no 47 since it was attached, or a 48 since its latest 47.
    pub const NO_MODE: u32 = 14;
    /// A value in a mode that has no format yet: no such 44 since the port was attached; of a 46 any mode of the
    /// entries pointed at.
    pub const NO_FORMAT: u32 = 15;
    /// A value whose bytes are not datasets times width of its format; of a 46 not the widths of the entries pointed at
    /// together.
    pub const VALUE_SIZE: u32 = 16;
    /// No dataset of that number; any message but a 45 or 46 has none; or a 46 points at an entry whose dataset its
    /// mode's format has not.
    pub const NO_DATASET: u32 = 17;
    /// A float dataset, of a 45 or 46, is an infinity or a NaN.
    pub const NOT_FINITE: u32 = 18;
    /// A log's record is malformed: only in the text of `read_block`.
    pub const LOG_RECORD: u32 = 19;
    /// A 46 of a port that is not combined: no 48 since it was attached, or a 47 since its latest 48.
    pub const NOT_COMBINED: u32 = 20;
    /// A 48 of a port that has no list, or with a pointer past the list; a 46 with a pointer that the latest 48 has
    /// not; either without a pointer.
    pub const POINTERS: u32 = 21;
    /// A command for two motors to a port that is not virtual.
    pub const NOT_VIRTUAL: u32 = 22;
    /// `write` is given a form that is read only.
    pub const READ_ONLY: u32 = 23;
    /// A lent row is too short for the answer; or `write` is given a row that is no message's own.
    pub const ROW: u32 = 255;
}

/// The cells of a message's row.
pub mod row {
    /// One of `form`.
    pub const FORM: usize = 0;
    /// Where the open bytes (a name, symbol, text or value, pairs of port and feedback, or a list) start in the message.
    pub const OPEN_START: usize = 1;
    /// How many they are, 0 for most forms.
    pub const OPEN_COUNT: usize = 2;
    /// How many values the form has.
    pub const COUNT: usize = 3;
    /// The first value; the others follow, and zeros after them.
    pub const VALUES: usize = 4;
}

/// The forms, each with its type in hex, its way and its whole size. Those marked read only are read, and no longer
/// written.
pub mod form {
    // Hub Properties
    /// 01 down, 5 bytes.
    pub const PROPERTY_COMMAND: u64 = 1;
    /// 01 both, 6 to 127 bytes.
    pub const PROPERTY_TEXT: u64 = 2;
    /// 01 both, 6 bytes.
    pub const PROPERTY_BYTE: u64 = 3;
    /// 01 up, 6 bytes.
    pub const PROPERTY_RSSI: u64 = 4;
    /// 01 up, 9 bytes.
    pub const PROPERTY_VERSION: u64 = 5;
    /// 01 up, 7 bytes.
    pub const PROPERTY_PROTOCOL: u64 = 6;
    /// 01 up, 11 bytes.
    pub const PROPERTY_ADDRESS: u64 = 7;

    // Hub Actions
    /// 02 both, 4 bytes.
    pub const HUB_ACTION: u64 = 8;

    // Hub Alerts
    /// 03 down, 5 bytes.
    pub const ALERT_COMMAND: u64 = 9;
    /// 03 up, 6 bytes.
    pub const ALERT_UPDATE: u64 = 10;

    // Hub Attached I/O
    /// 04 up, 5 bytes.
    pub const DETACHED: u64 = 11;
    /// 04 up, 15 bytes.
    pub const ATTACHED: u64 = 12;
    /// 04 up, 9 bytes.
    pub const ATTACHED_VIRTUAL: u64 = 13;

    // Generic Error Messages
    /// 05 up, 5 bytes.
    pub const GENERIC_ERROR: u64 = 14;

    // Firmware Update: Go Into Boot Mode, Lock Memory, Lock Status Request, Lock Status
    /// 10 down, 12 bytes.
    pub const GO_INTO_BOOT_MODE: u64 = 15;
    /// 11 down, 11 bytes, read only.
    pub const LOCK_MEMORY: u64 = 16;
    /// 12 down, 3 bytes, read only.
    pub const LOCK_STATUS_REQUEST: u64 = 17;
    /// 13 up, 4 bytes, read only.
    pub const LOCK_STATUS: u64 = 18;

    // Port Information Request, Port Mode Information Request
    /// 21 down, 5 bytes.
    pub const PORT_INFORMATION_REQUEST: u64 = 19;
    /// 22 down, 6 bytes.
    pub const MODE_INFORMATION_REQUEST: u64 = 20;

    // Port Input Format Setup (Single): asks a port for a mode
    /// 41 down, 10 bytes.
    pub const INPUT_FORMAT_SETUP: u64 = 21;

    // Port Information
    /// 43 up, 11 bytes.
    pub const PORT_MODES: u64 = 22;
    /// 43 up, 7 to 21 bytes.
    pub const PORT_COMBINATIONS: u64 = 23;

    // Port Mode Information
    /// 44 up, 7 to 17 bytes.
    pub const MODE_TEXT: u64 = 24;
    /// 44 up, 14 bytes.
    pub const MODE_RANGE: u64 = 25;
    /// 44 up, 8 bytes.
    pub const MODE_MAPPING: u64 = 26;
    /// 44 up, 7 bytes.
    pub const MODE_BIAS: u64 = 27;
    /// 44 up, 12 bytes.
    pub const MODE_CAPABILITIES: u64 = 28;
    /// 44 up, 10 bytes.
    pub const VALUE_FORMAT: u64 = 29;

    // Port Value (Single): the value of a port, in its mode
    /// 45 up, 5 to 127 bytes.
    pub const PORT_VALUE: u64 = 30;

    // Port Input Format (Single): answers which mode a port is in
    /// 47 up, 10 bytes.
    pub const INPUT_FORMAT: u64 = 31;

    // Virtual Port Setup
    /// 61 down, 5 bytes.
    pub const VIRTUAL_DISCONNECT: u64 = 32;
    /// 61 down, 6 bytes.
    pub const VIRTUAL_CONNECT: u64 = 33;

    // Port Output Command: drives motors
    /// 81 down, 15 bytes.
    pub const START_SPEED_FOR_DEGREES: u64 = 34;
    /// 81 down, 14 bytes.
    pub const GOTO_ABSOLUTE_POSITION: u64 = 35;
    /// 81 down, 18 bytes.
    pub const GOTO_ABSOLUTE_POSITIONS: u64 = 36;
    /// 81 down, 14 bytes.
    pub const PRESET_ENCODERS: u64 = 37;

    // Port Output Command Feedback: tells how far the commands are
    /// 82 up, 5 to 127 bytes: 2 to 124 open bytes, pairs of a port and its feedback, 0 to 31, and no values.
    pub const OUTPUT_FEEDBACK: u64 = 38;

    // Port Input Format Setup (CombinedMode): the second asks a port for a list of modes and datasets
    /// 42 down, 5 bytes.
    pub const COMBINED_SETUP: u64 = 39;
    /// 42 down, 7 to 22 bytes.
    pub const MODE_DATASETS: u64 = 40;

    // Port Value (CombinedMode): the values of a port, by its list
    /// 46 up, 7 to 127 bytes.
    pub const PORT_VALUE_COMBINED: u64 = 41;

    // Port Input Format (CombinedMode): answers which entries of its list a port sends
    /// 48 up, 7 bytes.
    pub const INPUT_FORMAT_COMBINED: u64 = 42;
}

// The values of each form: where they stand in a row, and what may stand there, a list or any number of a width. i8 and
// i32 are in two's complement of 64 bits, f32 the 32 bits of a finite float, u48 six bytes, the first the most
// significant. `castanetash.h` says what the numbers of properties, actions and the like mean.

pub mod property_command {
    /// Selector: 1 to 15.
    pub const PROPERTY: usize = 4;
    /// Selector: 2 to 5.
    pub const OPERATION: usize = 5;
}

/// The text is open bytes: 1 to 14 of property 1, 1 to 122 of 8 and 9.
pub mod property_text {
    /// Selector: 1, 8 or 9.
    pub const PROPERTY: usize = 4;
    /// Selector: 1 or 6.
    pub const OPERATION: usize = 5;
}

pub mod property_byte {
    /// Selector: 2, 6, 7, 11, 12 or 15.
    pub const PROPERTY: usize = 4;
    /// Selector: 1 or 6.
    pub const OPERATION: usize = 5;
    /// By its property.
    pub const VALUE: usize = 6;
}

pub mod property_rssi {
    /// Selector: 5.
    pub const PROPERTY: usize = 4;
    /// Selector: 6.
    pub const OPERATION: usize = 5;
    /// i8.
    pub const RSSI: usize = 6;
}

pub mod property_version {
    /// Selector: 3 or 4.
    pub const PROPERTY: usize = 4;
    /// Selector: 6.
    pub const OPERATION: usize = 5;
    /// i32.
    pub const VERSION: usize = 6;
}

pub mod property_protocol {
    /// Selector: 10.
    pub const PROPERTY: usize = 4;
    /// Selector: 6.
    pub const OPERATION: usize = 5;
    /// u16.
    pub const VERSION: usize = 6;
}

pub mod property_address {
    /// Selector: 13 or 14.
    pub const PROPERTY: usize = 4;
    /// Selector: 6.
    pub const OPERATION: usize = 5;
    /// u48.
    pub const ADDRESS: usize = 6;
}

pub mod hub_action {
    /// Selector: 1 to 6 or 47 down; 48 to 50 up.
    pub const ACTION: usize = 4;
}

pub mod alert_command {
    /// Selector: 1 to 4.
    pub const ALERT: usize = 4;
    /// Selector: 1 to 3.
    pub const OPERATION: usize = 5;
}

pub mod alert_update {
    /// Selector: 1 to 4.
    pub const ALERT: usize = 4;
    /// Selector: 4.
    pub const OPERATION: usize = 5;
    /// 0 fine or 255 alert.
    pub const STATUS: usize = 6;
}

pub mod detached {
    /// u8.
    pub const PORT: usize = 4;
    /// Selector: 0.
    pub const EVENT: usize = 5;
}

pub mod attached {
    /// u8.
    pub const PORT: usize = 4;
    /// Selector: 1.
    pub const EVENT: usize = 5;
    /// u16.
    pub const DEVICE: usize = 6;
    /// i32, the hardware revision.
    pub const HARDWARE: usize = 7;
    /// i32, the software revision.
    pub const SOFTWARE: usize = 8;
}

pub mod attached_virtual {
    /// u8.
    pub const PORT: usize = 4;
    /// Selector: 2.
    pub const EVENT: usize = 5;
    /// u16.
    pub const DEVICE: usize = 6;
    /// u8.
    pub const PORT_A: usize = 7;
    /// u8.
    pub const PORT_B: usize = 8;
}

pub mod generic_error {
    /// u8, the type of the message that it is about.
    pub const COMMAND: usize = 4;
    /// 1 to 8.
    pub const ERROR: usize = 5;
}

pub mod lock_status {
    /// u8; 0 locked, 255 not locked.
    pub const STATUS: usize = 4;
}

pub mod port_information_request {
    /// u8.
    pub const PORT: usize = 4;
    /// 0 to 2.
    pub const INFORMATION: usize = 5;
}

pub mod mode_information_request {
    /// u8.
    pub const PORT: usize = 4;
    /// 0 to 15.
    pub const MODE: usize = 5;
    /// 0 to 5, 7, 8 or 128.
    pub const INFORMATION: usize = 6;
}

pub mod input_format_setup {
    /// u8.
    pub const PORT: usize = 4;
    /// 0 to 15.
    pub const MODE: usize = 5;
    /// u32, the least change that is sent.
    pub const DELTA: usize = 6;
    /// 1 if changes are sent, else 0.
    pub const NOTIFY: usize = 7;
}

pub mod port_modes {
    /// u8.
    pub const PORT: usize = 4;
    /// Selector: 1.
    pub const INFORMATION: usize = 5;
    /// 0 to 15: 1 output, 2 input, 4 combinable, 8 synchronizable.
    pub const CAPABILITIES: usize = 6;
    /// u8.
    pub const MODE_COUNT: usize = 7;
    /// u16, a bit a mode.
    pub const INPUT_MODES: usize = 8;
    /// u16, a bit a mode.
    pub const OUTPUT_MODES: usize = 9;
}

pub mod port_combinations {
    /// u8.
    pub const PORT: usize = 4;
    /// Selector: 2.
    pub const INFORMATION: usize = 5;
    /// 1 to 8.
    pub const COUNT: usize = 6;
    /// The first of eight u16, a bit a mode; those past the count are 0 after reading, and not looked at in writing.
    pub const ENTRIES: usize = 7;
}

/// The name or symbol is open bytes.
pub mod mode_text {
    /// u8.
    pub const PORT: usize = 4;
    /// 0 to 15.
    pub const MODE: usize = 5;
    /// Selector: 0, 1 to 11 open bytes; or 4, 1 to 5 open bytes.
    pub const INFORMATION: usize = 6;
}

pub mod mode_range {
    /// u8.
    pub const PORT: usize = 4;
    /// 0 to 15.
    pub const MODE: usize = 5;
    /// Selector: 1 to 3.
    pub const INFORMATION: usize = 6;
    /// f32.
    pub const LOWEST: usize = 7;
    /// f32.
    pub const HIGHEST: usize = 8;
}

pub mod mode_mapping {
    /// u8.
    pub const PORT: usize = 4;
    /// 0 to 15.
    pub const MODE: usize = 5;
    /// Selector: 5.
    pub const INFORMATION: usize = 6;
    /// u16.
    pub const MAPPING: usize = 7;
}

pub mod mode_bias {
    /// u8.
    pub const PORT: usize = 4;
    /// 0 to 15.
    pub const MODE: usize = 5;
    /// Selector: 7.
    pub const INFORMATION: usize = 6;
    /// 0 to 100.
    pub const BIAS: usize = 7;
}

pub mod mode_capabilities {
    /// u8.
    pub const PORT: usize = 4;
    /// 0 to 15.
    pub const MODE: usize = 5;
    /// Selector: 8.
    pub const INFORMATION: usize = 6;
    /// u48.
    pub const BITS: usize = 7;
}

pub mod value_format {
    /// u8.
    pub const PORT: usize = 4;
    /// 0 to 15.
    pub const MODE: usize = 5;
    /// Selector: 128.
    pub const INFORMATION: usize = 6;
    /// 1 to 16.
    pub const DATASETS: usize = 7;
    /// 0 to 3: one of `format_kind`.
    pub const KIND: usize = 8;
    /// u8, figures in all.
    pub const FIGURES: usize = 9;
    /// u8.
    pub const DECIMALS: usize = 10;
}

/// The value is open bytes, 1 to 123.
pub mod port_value {
    /// u8.
    pub const PORT: usize = 4;
}

pub mod input_format {
    /// u8.
    pub const PORT: usize = 4;
    /// 0 to 15.
    pub const MODE: usize = 5;
    /// u32.
    pub const DELTA: usize = 6;
    /// 0 or 1.
    pub const NOTIFY: usize = 7;
}

pub mod virtual_disconnect {
    /// Selector: 0.
    pub const SUB: usize = 4;
    /// u8.
    pub const PORT: usize = 5;
}

pub mod virtual_connect {
    /// Selector: 1.
    pub const SUB: usize = 4;
    /// u8.
    pub const PORT_A: usize = 5;
    /// u8.
    pub const PORT_B: usize = 6;
}

/// For the two motors of a virtual port.
pub mod start_speed_for_degrees {
    /// u8.
    pub const PORT: usize = 4;
    /// 16 to execute at once, else 0: buffered if necessary; plus 1 if feedback is wanted.
    pub const START: usize = 5;
    /// Selector: 12.
    pub const SUB: usize = 6;
    /// 0 to 10000000, an i32.
    pub const DEGREES: usize = 7;
    /// -100 to 100 percent, an i8. The sign is the direction.
    pub const SPEED_LEFT: usize = 8;
    /// -100 to 100 percent, an i8. The sign is the direction.
    pub const SPEED_RIGHT: usize = 9;
    /// 0 to 100 percent.
    pub const POWER: usize = 10;
    /// 0 float, 126 hold or 127 brake.
    pub const END_STATE: usize = 11;
    /// 0 to 3: 1 acceleration, 2 deceleration.
    pub const PROFILE: usize = 12;
}

/// For one motor, or a virtual port.
pub mod goto_absolute_position {
    /// u8.
    pub const PORT: usize = 4;
    /// 16 to execute at once, else 0: buffered if necessary; plus 1 if feedback is wanted.
    pub const START: usize = 5;
    /// Selector: 13.
    pub const SUB: usize = 6;
    /// i32, degrees.
    pub const POSITION: usize = 7;
    /// 1 to 100 percent.
    pub const SPEED: usize = 8;
    /// 0 to 100 percent.
    pub const POWER: usize = 9;
    /// 0 float, 126 hold or 127 brake.
    pub const END_STATE: usize = 10;
    /// 0 to 3: 1 acceleration, 2 deceleration.
    pub const PROFILE: usize = 11;
}

/// For the two motors of a virtual port.
pub mod goto_absolute_positions {
    /// u8.
    pub const PORT: usize = 4;
    /// 16 to execute at once, else 0: buffered if necessary; plus 1 if feedback is wanted.
    pub const START: usize = 5;
    /// Selector: 14.
    pub const SUB: usize = 6;
    /// i32, degrees.
    pub const POSITION_1: usize = 7;
    /// i32, degrees.
    pub const POSITION_2: usize = 8;
    /// 1 to 100 percent.
    pub const SPEED: usize = 9;
    /// 0 to 100 percent.
    pub const POWER: usize = 10;
    /// 0 float, 126 hold or 127 brake.
    pub const END_STATE: usize = 11;
    /// 0 to 3: 1 acceleration, 2 deceleration.
    pub const PROFILE: usize = 12;
}

/// For the two motors of a virtual port.
pub mod preset_encoders {
    /// u8.
    pub const PORT: usize = 4;
    /// 16 to execute at once, else 0: buffered if necessary; plus 1 if feedback is wanted.
    pub const START: usize = 5;
    /// Selector: 20.
    pub const SUB: usize = 6;
    /// i32, degrees.
    pub const LEFT_POSITION: usize = 7;
    /// i32, degrees.
    pub const RIGHT_POSITION: usize = 8;
}

/// A sub command that leaves the list alone.
pub mod combined_setup {
    /// u8.
    pub const PORT: usize = 4;
    /// Selector: 2 lock the device for setup, 3 or 4 unlock and start it, with multi update or without, 6 reset it.
    pub const SUB: usize = 5;
}

/// The list is open bytes, 1 to 16: in each the mode in the high half and the dataset in the low, and no byte twice.
pub mod mode_datasets {
    /// u8.
    pub const PORT: usize = 4;
    /// Selector: 1.
    pub const SUB: usize = 5;
    /// u8, the index of a combination.
    pub const COMBINATION: usize = 6;
}

/// The values are open bytes, 1 to 121: a dataset for each pointer, from the lowest up.
pub mod port_value_combined {
    /// u8.
    pub const PORT: usize = 4;
    /// u16, a bit an entry: 1 the list's first, 2 its second, 4 its third, and so on.
    pub const POINTERS: usize = 5;
}

pub mod input_format_combined {
    /// u8.
    pub const PORT: usize = 4;
    /// u8: bits 0 to 3 the index of the combination, bit 7 multi update.
    pub const CONTROL: usize = 5;
    /// u16, a bit an entry.
    pub const POINTERS: usize = 6;
}

/// How a port's latest answer, a 47 or a 48, stands to its latest asking, a 41 or a list (42, sub command 1).
pub mod state {
    /// There was no asking.
    pub const NOTHING_ASKED: u64 = 0;
    /// There was no answer since the latest asking: values are still as before.
    pub const UNANSWERED: u64 = 1;
    /// The latest answer came after it: a 47 to a 41, with equal mode, delta and notify; or a 48 to a list, whose
    /// pointers are all of the list's.
    pub const AS_ASKED: u64 = 2;
    /// The latest answer came after it, and differs: so do a 47 to a list and a 48 to a 41.
    pub const OTHERWISE: u64 = 3;
}

/// The cells of a dataset.
pub mod dataset_cell {
    /// One of `dataset_kind`.
    pub const KIND: usize = 0;
    /// A whole number in two's complement: `as i64`; a float as its 32 bits: `f32::from_bits`.
    pub const VALUE: usize = 1;
    pub const PORT: usize = 2;
    /// The mode that the hub last answered, and that the value is read by; of a 46 that of its entry.
    pub const MODE: usize = 3;
    /// One of `state`.
    pub const STATE: usize = 4;
    /// Of the experiment that asked for it; 0 unless the state is 2.
    pub const EXPERIMENT: usize = 5;
}

/// What a dataset is.
pub mod dataset_kind {
    pub const WHOLE: u64 = 0;
    pub const FLOAT: u64 = 1;
}

/// The cells of a port. What isn't known is 0.
pub mod port_cell {
    /// One of `wiring`.
    pub const WIRING: usize = 0;
    pub const DEVICE: usize = 1;
    /// A joined port's virtual port; a virtual port's first member, as sent.
    pub const PARTNER: usize = 2;
    /// A virtual port's second member, as sent.
    pub const SECOND: usize = 3;
    /// One of `state`.
    pub const STATE: usize = 4;
    /// The latest asking: 1 a 41, whose mode, delta and notify follow, 2 a list (42, sub command 1).
    pub const ASKED: usize = 5;
    pub const ASKED_MODE: usize = 6;
    pub const ASKED_DELTA: usize = 7;
    pub const ASKED_NOTIFY: usize = 8;
    /// The latest answer: 1 a 47, whose mode, delta and notify follow, 2 a 48, so the port is combined.
    pub const ANSWERED: usize = 9;
    pub const ANSWERED_MODE: usize = 10;
    pub const ANSWERED_DELTA: usize = 11;
    pub const ANSWERED_NOTIFY: usize = 12;
    /// That of the latest asking.
    pub const EXPERIMENT: usize = 13;
    /// Of the latest 48, if the port is combined.
    pub const POINTERS: usize = 14;
    /// How many entries the latest list has.
    pub const LIST: usize = 15;
    /// The first of sixteen, zeros after them.
    pub const LIST_ENTRIES: usize = 16;
    /// How many entries the list has that the latest 48 took over, by which a 46 is read; 0 unless the port is combined.
    pub const TAKEN: usize = 32;
    /// The first of sixteen, zeros after them.
    pub const TAKEN_ENTRIES: usize = 33;
}

/// What a port is.
pub mod wiring {
    pub const ABSENT: u64 = 0;
    /// Physical, and no member of a virtual port.
    pub const UNJOINED: u64 = 1;
    /// Physical, and a member of a virtual port.
    pub const JOINED: u64 = 2;
    pub const VIRTUAL: u64 = 3;
}

/// The cells of a mode's format. What isn't known is 0.
pub mod format_cell {
    /// 1 if the format is known.
    pub const KNOWN: usize = 0;
    /// 1 to 16.
    pub const DATASETS: usize = 1;
    /// One of `format_kind`.
    pub const KIND: usize = 2;
    pub const FIGURES: usize = 3;
    pub const DECIMALS: usize = 4;
}

/// The kinds of a format: signed whole numbers of 1, 2 and 4 bytes, and floats.
pub mod format_kind {
    pub const INT8: u64 = 0;
    pub const INT16: u64 = 1;
    pub const INT32: u64 = 2;
    pub const FLOAT: u64 = 3;
}

/// The cells of a log's totals.
pub mod totals {
    /// Records so far.
    pub const RECORDS: usize = 0;
    /// Refused ones among them.
    pub const REFUSED: usize = 1;
}

/// The library's functions.
pub mod raw {
    #[link(name = "castanetash", kind = "static")]
    unsafe extern "C" {
        pub fn castanetash_read(message: *const u8, message_len: usize, way: u8, row: *mut u64, row_len: usize) -> u64;

        pub fn castanetash_write(
            row: *const u64,
            row_len: usize,
            way: u8,
            open: *const u8,
            open_len: usize,
            out: *mut u8,
            out_len: usize,
        ) -> u64;

        pub fn castanetash_empty(table: *mut u32, table_len: usize) -> u64;

        pub fn castanetash_offer(
            table: *mut u32,
            table_len: usize,
            message: *const u8,
            message_len: usize,
            way: u8,
            experiment: u16,
        ) -> u64;

        pub fn castanetash_dataset(
            table: *const u32,
            table_len: usize,
            message: *const u8,
            message_len: usize,
            way: u8,
            number: usize,
            row: *mut u64,
            row_len: usize,
        ) -> u64;

        pub fn castanetash_values(
            table: *const u32,
            table_len: usize,
            message: *const u8,
            message_len: usize,
            way: u8,
            rows: *mut u64,
            rows_len: usize,
        ) -> u64;

        pub fn castanetash_ports(table: *const u32, table_len: usize, ports: *mut u8, ports_len: usize) -> u64;

        pub fn castanetash_port(table: *const u32, table_len: usize, port: u8, row: *mut u64, row_len: usize) -> u64;

        pub fn castanetash_format(
            table: *const u32,
            table_len: usize,
            port: u8,
            mode: u8,
            row: *mut u64,
            row_len: usize,
        ) -> u64;

        pub fn castanetash_read_block(
            table: *mut u32,
            table_len: usize,
            totals: *mut u64,
            totals_len: usize,
            log: *const u8,
            log_len: usize,
            text: *mut u8,
            text_len: usize,
        ) -> u64;
    }
}
