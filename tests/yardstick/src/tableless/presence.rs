use super::message::{attaches, ends, members, port};
use super::MessageList;

impl MessageList {
    /// Where the attachment stands in the list by which a port is present: its latest, unless an ending follows.
    pub(super) fn attachment(&self, port: u64) -> Option<usize> {
        let latest = self.accepted.iter().rposition(|entry| attaches(&entry.message, port))?;
        let attachment = self.message(latest);
        let is_over = self.accepted[latest + 1..]
            .iter()
            .any(|entry| ends(&entry.message, attachment));
        (!is_over).then_some(latest)
    }

    pub(super) fn is_present(&self, port: u64) -> bool {
        self.attachment(port).is_some()
    }

    /// Whether a port is present and its attachment was plain.
    pub(super) fn is_physical(&self, port: u64) -> bool {
        self.attachment(port)
            .is_some_and(|place| members(self.message(place)).is_none())
    }

    /// The virtual port that is present and names a port.
    pub(super) fn partner(&self, member: u64) -> Option<u64> {
        let names = |place: &usize| members(self.message(*place)).is_some_and(|members| members.contains(&member));
        let stands = |place: &usize| self.attachment(port(self.message(*place))) == Some(*place);
        let place = (0..self.accepted.len()).rev().filter(names).find(stands)?;
        Some(port(self.message(place)))
    }

    /// How many ports are present.
    pub(super) fn ports_present(&self) -> usize {
        self.ports().count()
    }
}
