//! What is answered about the size of a message is held to the sizes that are written out by hand.

use yardstick::examples::{has_right_size, wanted_size};
use yardstick::{Refusal, Way};

/// The number of the refusal of a wrong size.
pub const WRONG_SIZE: usize = 6;

/// The answer to a wrong size, by the one that is wanted.
pub const fn wrong_size(wanted: usize) -> u64 {
    (WRONG_SIZE as u64) << 32 | wanted as u64
}

/// Whether a refusal is that of a wrong size.
pub(crate) fn is_wrong_size(refusal: Refusal) -> bool {
    usize::from(refusal.number) == WRONG_SIZE
}

/// Panics unless a message that is accepted has a right size, and one that is refused for its size has a wrong one and
/// is told the one that is wanted.
#[track_caller]
pub(crate) fn expect_size_by_hand(way: Way, message: &[u8], refusal: Option<Refusal>) {
    match refusal {
        None => assert!(has_right_size(way, message), "{message:02X?} {way:?} is accepted"),
        Some(refusal) if is_wrong_size(refusal) => {
            assert!(!has_right_size(way, message), "{message:02X?} {way:?}: {refusal:?}");
            assert_eq!(refusal.place, wanted_size(way, message), "{message:02X?} {way:?}");
        }
        Some(_) => {}
    }
}
