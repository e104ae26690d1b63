//! Whole numbers to hand out and to print, and a port that sends them.

mod numbers;
mod port;
mod signs;

pub use numbers::{datasets, number, orders_of_signs, unsigned, with_signs, KINDS};
pub use port::{messages, value, EXPERIMENT, MODE, PORT};
pub use signs::Signs;
