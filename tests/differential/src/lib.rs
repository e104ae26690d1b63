//! What the tests share: the product's interface by its declarations for Rust, the comparison with the second program in
//! reading, in writing and in port tables, the product's log reader, whole numbers with their sign, and random messages.

mod answer;
pub mod by_hand;
#[allow(missing_docs, unsafe_code)]
#[rustfmt::skip]
#[path = "../../../include/castanetash.rs"]
pub mod castanetash;
mod lent;
mod product;
mod program;
mod read_only;
pub mod signed;
mod table;
mod tally;
mod writing;
mod wrong_size;

pub use answer::{number, refused, row_answer, Filled, BAD_ROW, NOT_SOUND};
pub use castanetash::{DATASET_CELLS, FORMAT_CELLS, PORT_CELLS, ROW_CELLS, TOTALS_CELLS};
pub use lent::{Filling, Lent};
pub use product::{
    castanetash_dataset, castanetash_empty, castanetash_format, castanetash_offer, castanetash_port, castanetash_ports,
    castanetash_read, castanetash_read_block, castanetash_values, castanetash_write, read, way_byte, write,
};
pub use program::{logread, logread_by_shell, logread_path, printed, printed_in_pieces, root, run, wanted};
pub use read_only::{read_only, READ_ONLY};
pub use table::{dataset_cells, format_cells, offer_answer, port_cells, values_cells, LentTable, TableTally, Trio};
pub use tally::Tally;
pub use writing::{
    any_call, bad_feedback_calls, edges, near_call, outside, valid_calls, valid_messages, Call, WriteTally, OUTPUT,
};
pub use wrong_size::{wrong_size, WRONG_SIZE};
pub use yardstick::traffic::{known_types, plausible};
pub use yardstick::Random;
