//! What is answered to writing a message of a type that is only read, by hand.

use yardstick::{Form, Way};

/// The number of the refusal of a type that is only read.
pub const READ_ONLY: usize = 23;

/// The answer to writing a message of 11, 12 or 13, whatever else is wrong with it: they are only read, which comes
/// after the way. None for the other types.
pub const fn read_only(way: Way, form: Form) -> Option<u64> {
    const OTHER_WAY: u64 = 5 << 32 | 2;
    const ONLY_READ: u64 = (READ_ONLY as u64) << 32;
    match (form, way) {
        (Form::LockMemory | Form::LockStatusRequest, Way::Down) | (Form::LockStatus, Way::Up) => Some(ONLY_READ),
        (Form::LockMemory | Form::LockStatusRequest, Way::Up) | (Form::LockStatus, Way::Down) => Some(OTHER_WAY),
        _ => None,
    }
}

/// Panics unless an answer of writing is right by hand: that of a type that is only read is the one above, and no other
/// type is refused so.
#[track_caller]
pub(crate) fn expect_read_only_by_hand(way: Way, form: Form, answer: u64) {
    match read_only(way, form) {
        Some(expected) => assert_eq!(answer, expected, "{form:?} {way:?}"),
        None => assert_ne!(answer >> 32, READ_ONLY as u64, "{form:?} {way:?}"),
    }
}
