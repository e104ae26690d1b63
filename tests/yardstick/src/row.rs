//! A message as a row of numbers, as the product's interface has it.

use crate::decoded::Decoded;
use crate::encode::encode_to;
use crate::form::Form;
use crate::message::Message;
use crate::refusal::Refusal;
use crate::way::Way;

/// How many cells a row has.
pub const ROW_CELLS: usize = 16;

/// The form, where the open bytes start, how many they are, how many values there are, the values, and 0 in the rest.
pub type Row = [u64; ROW_CELLS];

/// Where the form is in a row.
const FORM: usize = 0;

/// Where the values of a row start.
const VALUES: usize = 4;

impl Decoded {
    /// The message's row.
    pub fn row(&self) -> Row {
        let mut row = [0; ROW_CELLS];
        let values = self.values();
        row[FORM] = self.form.number().into();
        row[1] = self.open.start as u64;
        row[2] = self.open.len() as u64;
        row[3] = values.len() as u64;
        row[VALUES..][..values.len()].copy_from_slice(values);
        row
    }
}

impl<'a> Message<'a> {
    /// The message of a row, unless that has too few cells or no form. Of its cells the form and its values are looked
    /// at; those past the cells of a row are not.
    pub fn of_row(row: &'a [u64]) -> Option<Message<'a>> {
        let row: &Row = row.first_chunk()?;
        let form = Form::of_number(row[FORM])?;
        Message::new(form, &row[VALUES..][..form.kinds().len()])
    }
}

/// Writes the message of a row with its open bytes to the start of `output`, and gives its length. A refusal changes
/// nothing.
pub fn write_row(way: Way, row: &[u64], open: &[u8], output: &mut [u8]) -> Result<usize, Refusal> {
    let message = Message::of_row(row).ok_or(Refusal::ROW)?;
    encode_to(way, message, open, output)
}
