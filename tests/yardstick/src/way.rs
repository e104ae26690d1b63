/// The direction of a message. The caller states it, as no byte of the message does.
#[derive(Clone, Copy, Debug, PartialEq, Eq)]
pub enum Way {
    /// To the hub.
    Down,
    /// From the hub.
    Up,
}

impl Way {
    /// Both directions.
    pub const BOTH: [Way; 2] = [Way::Down, Way::Up];
}
