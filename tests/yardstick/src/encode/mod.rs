//! Writing. Each step judges one part of the order for writing: 5, 23, selectors 7, 6, fields 7, 8. The values may be
//! any numbers of 64 bits: one that is wider than its field is 7 where the field has a list, else 255 before 8.

mod bytes;
mod layout;
mod message_type;
mod selectors;
mod size;

use crate::message::Message;
use crate::refusal::Refusal;
use crate::way::Way;

/// Writes one message with its open bytes, or gives the first refusal in the order of the rules.
pub fn encode(way: Way, message: Message, open: &[u8]) -> Result<Vec<u8>, Refusal> {
    message_type::judge_way(way, message.form())?;
    message_type::judge_writable(message.form())?;
    selectors::judge(way, message)?;
    size::judge(message, open)?;
    layout::lay_out(message, open)
}

/// Writes one message with its open bytes to the start of `output`, and gives its length. A refusal changes nothing.
pub fn encode_to(way: Way, message: Message, open: &[u8], output: &mut [u8]) -> Result<usize, Refusal> {
    let bytes = encode(way, message, open)?;
    let start = output.get_mut(..bytes.len()).ok_or(Refusal::OUTPUT)?;
    start.copy_from_slice(&bytes);
    Ok(bytes.len())
}
