//! Answers of the second program as the product gives them: the refusal's number above its place, or how much was
//! written. The place of a wrong size is the size that was wanted.

use yardstick::{Decoded, Refusal, Row};

/// The cells that a call fills, or the answer of a refused call.
pub type Filled<const N: usize> = Result<[u64; N], u64>;

/// The answer of every call whose table isn't sound.
pub const NOT_SOUND: u64 = 9 << 32;

/// The answer where a lent row is too short, and to a row that is no message's own.
pub const BAD_ROW: u64 = 255 << 32;

/// An answer: how much was written, or a refusal.
pub fn answer(outcome: Result<usize, Refusal>) -> u64 {
    match outcome {
        Ok(written) => written as u64,
        Err(refusal) => refused(refusal),
    }
}

/// A refusal's answer.
pub fn refused(refusal: Refusal) -> u64 {
    u64::from(refusal.number) << 32 | refusal.place as u64
}

/// The refusal's number in an answer, 0 for acceptance.
pub fn number(answer: u64) -> usize {
    (answer >> 32) as usize
}

/// The answer to a message that is read.
pub fn row_answer(outcome: &Result<Decoded, Refusal>) -> Result<Row, u64> {
    match outcome {
        Ok(decoded) => Ok(decoded.row()),
        Err(refusal) => Err(refused(*refusal)),
    }
}
