use crate::refusal::Refusal;

/// The size of the header: length, hub id and type.
pub(crate) const SIZE: usize = 3;

/// Judges length and hub id, and gives the type.
pub(crate) fn message_type(message: &[u8]) -> Result<u8, Refusal> {
    let length = *message.first().ok_or(Refusal::NO_BYTE)?;
    if length & 0x80 != 0 {
        return Err(Refusal::LENGTH_BIT);
    }
    if usize::from(length) != message.len() || message.len() < SIZE {
        return Err(Refusal::LENGTH);
    }
    if message[1] != 0 {
        return Err(Refusal::HUB_ID);
    }
    Ok(message[2])
}
