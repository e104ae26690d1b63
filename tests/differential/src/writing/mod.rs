//! Comparing the two writers.

mod call;
mod edges;
mod random_calls;
mod tally;

pub use call::{bad_feedback_calls, valid_calls, valid_messages, Call, OUTPUT};
pub use edges::{edges, outside};
pub use random_calls::{any_call, near_call};
pub use tally::WriteTally;
