//! A second program by the rules of the product, written from the documents alone.
//!
//! [`decode`] reads one message of LEGO Wireless Protocol 3.0, and [`encode`] writes one; [`write_row`] does it by the
//! numbers of a row. [`Table`] is a port table for one hub, [`MessageList`] the reader without a table, and [`read_log`]
//! the log reader. The tests in `differential` compare their answers with those of the product. [`traffic`] and
//! [`make_log`] make messages and logs to try them with.

mod answer;
mod combined;
mod combined_tally;
mod decode;
mod decoded;
mod encode;
pub mod examples;
mod experiment_tally;
mod fields;
mod firmware;
mod form;
mod header;
mod hub;
mod hub_property;
mod kind;
mod lists;
mod log;
pub mod make_log;
mod message;
mod mode_information;
mod output;
mod port;
mod random;
mod refusal;
mod row;
mod table;
mod tableless;
pub mod traffic;
mod values;
mod way;

pub use answer::{Answered, Asked, Dataset, Format, List, Port, Setup, State, Value, Wiring};
pub use combined_tally::CombinedTally;
pub use decode::decode;
pub use decoded::Decoded;
pub use encode::{encode, encode_to};
pub use experiment_tally::{ExperimentTally, Offered};
pub use form::Form;
pub use kind::Kind;
pub use log::{log_lines, log_message, log_record, read_block, read_log, LineValue, LogLine, LINE_ROOM, LOG_RECORD};
pub use message::Message;
pub use random::Random;
pub use refusal::Refusal;
pub use row::{write_row, Row, ROW_CELLS};
pub use table::{CombinedValue, PortValue, Step, Table, TableCells, PLACES, RECORD_CELLS, TABLE_CELLS};
pub use tableless::MessageList;
pub use way::Way;
