use super::MessageList;
use crate::decoded::Decoded;

/// An accepted message, its open bytes, and the experiment number that came with it.
#[derive(Clone, Debug)]
pub(super) struct Entry {
    pub(super) message: Decoded,
    pub(super) open: Vec<u8>,
    pub(super) experiment: u16,
}

impl MessageList {
    /// The message at a place of the list.
    pub(super) fn message(&self, place: usize) -> &Decoded {
        &self.accepted[place].message
    }

    /// The open bytes of the message at a place of the list.
    pub(super) fn open(&self, place: usize) -> &[u8] {
        &self.accepted[place].open
    }
}
