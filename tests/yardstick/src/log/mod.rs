//! Logs of one hub's messages, and the log reader.

mod line;
mod reader;
mod record;

pub use line::{log_lines, LineValue, LogLine};
pub use reader::{read_block, read_log, LINE_ROOM};
pub(crate) use record::MESSAGE_PART;
pub use record::{log_message, log_record, LOG_RECORD};
