use crate::refusal::Refusal;
use crate::way::Way;

/// The size of a log record: time, direction, a zero, the experiment number and the message's part.
pub const LOG_RECORD: usize = 136;

/// Where a record's message starts.
const MESSAGE: usize = 8;

/// The most bytes of a message that a record has room for.
pub(crate) const MESSAGE_PART: usize = LOG_RECORD - MESSAGE;

/// The message in a log record, with its way and its experiment number.
pub fn log_message(record: &[u8]) -> Result<(Way, &[u8], u16), Refusal> {
    let Ok(&[_, _, _, _, direction, zero, low, high, ref part @ ..]) = <&[u8; LOG_RECORD]>::try_from(record) else {
        return Err(Refusal::LOG_RECORD);
    };
    let way = match direction {
        0 => Way::Down,
        1 => Way::Up,
        _ => return Err(Refusal::LOG_RECORD),
    };
    if zero != 0 {
        return Err(Refusal::LOG_RECORD);
    }
    // A length over 127 takes the whole part.
    let length = usize::from(part[0]).min(part.len());
    let (message, rest) = part.split_at(length);
    if rest.iter().any(|&byte| byte != 0) {
        return Err(Refusal::LOG_RECORD);
    }
    Ok((way, message, u16::from_le_bytes([low, high])))
}

/// The log record of a message of at most 128 bytes, whose first byte says where it ends, with its experiment number.
pub fn log_record(time: u32, way: Way, message: &[u8], experiment: u16) -> [u8; LOG_RECORD] {
    let mut record = [0; LOG_RECORD];
    record[..4].copy_from_slice(&time.to_le_bytes());
    record[4] = u8::from(way == Way::Up);
    record[6..MESSAGE].copy_from_slice(&experiment.to_le_bytes());
    record[MESSAGE..][..message.len()].copy_from_slice(message);
    record
}
