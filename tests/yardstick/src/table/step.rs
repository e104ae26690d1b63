use super::combined_value::CombinedValue;
use super::port_value::PortValue;
use crate::answer::{Format, List, Setup};

/// What an accepted message does to the table.
#[derive(Clone, Copy, Debug, PartialEq, Eq)]
pub enum Step<'m> {
    /// Nothing.
    Nothing,
    /// Nothing, and it has a value.
    Value(PortValue<'m>),
    /// Nothing, and it has the values of a combined port.
    CombinedValue(CombinedValue<'m>),
    /// A physical port is attached.
    Attach {
        /// The port.
        port: u8,
        /// Its device.
        device: u16,
    },
    /// A virtual port is attached.
    AttachVirtual {
        /// The port.
        port: u8,
        /// Its device.
        device: u16,
        /// Its members.
        members: [u8; 2],
    },
    /// A port is detached.
    Detach {
        /// The port.
        port: u8,
    },
    /// A mode's format is known.
    Format {
        /// The port.
        port: u8,
        /// The mode.
        mode: u8,
        /// The format.
        format: Format,
    },
    /// A setup is asked.
    Ask {
        /// The port.
        port: u8,
        /// The setup.
        setup: Setup,
    },
    /// A list is asked.
    AskList {
        /// The port.
        port: u8,
        /// The list.
        list: List,
    },
    /// A setup is answered.
    Answer {
        /// The port.
        port: u8,
        /// The setup.
        setup: Setup,
    },
    /// The port's list is answered.
    Combine {
        /// The port.
        port: u8,
        /// The pointers into the list.
        pointers: u16,
    },
    /// The hub switches off, disconnects or goes into boot mode.
    Empty,
}
