//! Messages with the answers they have to get, and the sizes of messages, written out by hand from the documents. Both
//! programs are held to them.

mod bench;
mod combined;
mod experiments;
mod forms;
mod hex;
mod logs;
mod messages;
mod order;
mod sizes;
mod sound;
mod table_step;
mod tables;
mod wanted_size;
mod whole_numbers;
mod writing;

use std::ops::Range;

use crate::decoded::Decoded;
use crate::form::Form;
use crate::refusal::Refusal;
use crate::values::Values;
use crate::way::Way;

pub use bench::BENCH;
pub use combined::COMBINED;
pub use experiments::EXPERIMENTS;
pub use forms::FORMS;
pub use hex::bytes;
pub use logs::{LogExample, LOGS};
pub use order::ORDER;
pub use sizes::SIZES;
pub use sound::{SoundExample, COMBINED_SOUND, SOUND};
pub use table_step::{TableExample, TableStep};
pub use tables::TABLES;
pub use wanted_size::{has_right_size, selected_form, smallest_size, wanted_size, SELECTOR_SIZES};
pub use whole_numbers::WHOLE_NUMBERS;
pub use writing::{Unwritten, READ_ONLY, WRITING};

/// A message with its answer.
pub struct Example {
    /// The message's way.
    pub way: Way,
    /// The message's bytes in hex, with blanks between them.
    pub message: &'static str,
    answer: Answer,
}

enum Answer {
    Refused(Refusal),
    Accepted {
        form: Form,
        values: &'static [u64],
        open: Range<usize>,
    },
}

impl Example {
    /// The message's bytes.
    pub fn bytes(&self) -> Vec<u8> {
        bytes(self.message)
    }

    /// The answer that reading the message has to give.
    pub fn answer(&self) -> Result<Decoded, Refusal> {
        match &self.answer {
            Answer::Refused(refusal) => Err(*refusal),
            Answer::Accepted { form, values, open } => {
                let mut all = Values::default();
                values.iter().for_each(|&value| all.push(value));
                Ok(Decoded {
                    form: *form,
                    open: open.clone(),
                    values: all,
                })
            }
        }
    }
}

const fn refused(way: Way, message: &'static str, number: u8, place: usize) -> Example {
    Example {
        way,
        message,
        answer: Answer::Refused(Refusal { number, place }),
    }
}

const fn accepted(way: Way, message: &'static str, form: Form, values: &'static [u64]) -> Example {
    with_open(way, message, form, values, 0..0)
}

const fn with_open(way: Way, message: &'static str, form: Form, values: &'static [u64], open: Range<usize>) -> Example {
    Example {
        way,
        message,
        answer: Answer::Accepted { form, values, open },
    }
}
