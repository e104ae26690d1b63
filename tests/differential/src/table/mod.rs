//! Comparing the product's table with the second program's and with the reader without a table.

mod answer;
mod lent_table;
mod tally;
mod trio;

pub use answer::{dataset_cells, format_cells, offer_answer, port_cells, values_cells};
pub use lent_table::LentTable;
pub use tally::TableTally;
pub use trio::Trio;
