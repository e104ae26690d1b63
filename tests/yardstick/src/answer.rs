//! What can be asked of a port. This is plain data without any rule: the table and the reader without a table both
//! answer in it, so that they can be compared.

use std::fmt;

/// A setup of a port, by a 41 or a 47.
#[derive(Clone, Copy, Debug, PartialEq, Eq)]
pub struct Setup {
    /// The mode, 0 to 15.
    pub mode: u8,
    /// The least change that is notified.
    pub delta: u32,
    /// Whether changes are notified.
    pub notify: bool,
}

/// The format of a mode's values, as a 44 of type 80 has it.
#[derive(Clone, Copy, Debug, PartialEq, Eq)]
pub struct Format {
    /// How many datasets a value has, 1 to 16.
    pub datasets: u8,
    /// Their kind: signed numbers of 8, 16 or 32 bits, or floats.
    pub kind: u8,
    /// Total figures.
    pub figures: u8,
    /// Decimals.
    pub decimals: u8,
}

/// A list of modes and datasets, as a 42 with sub command 1 has it.
#[derive(Clone, Copy, PartialEq, Eq)]
pub struct List {
    /// Those past the count are 0.
    entries: [u8; List::MOST],
    count: u8,
}

impl List {
    /// The most entries that a list has.
    pub const MOST: usize = 16;

    /// The list of these entries, at most sixteen: in each the mode in the high half, the dataset in the low.
    pub const fn new(entries: &[u8]) -> List {
        let mut list = List {
            entries: [0; List::MOST],
            count: entries.len() as u8,
        };
        let mut index = 0;
        while index < entries.len() {
            list.entries[index] = entries[index];
            index += 1;
        }
        list
    }

    /// Its entries.
    pub fn entries(&self) -> &[u8] {
        &self.entries[..usize::from(self.count)]
    }
}

impl fmt::Debug for List {
    fn fmt(&self, f: &mut fmt::Formatter) -> fmt::Result {
        write!(f, "List({:02X?})", self.entries())
    }
}

/// What a port was last asked for.
#[derive(Clone, Copy, Debug, PartialEq, Eq)]
pub enum Asked {
    /// A mode, by a 41.
    Single(Setup),
    /// The list that it keeps, by a 42 with sub command 1.
    List,
}

/// What a port last answered.
#[derive(Clone, Copy, Debug, PartialEq, Eq)]
pub enum Answered {
    /// A mode, by a 47.
    Single(Setup),
    /// Pointers into the list that it took over, by a 48.
    Combined {
        /// A bit an entry, the lowest for the first.
        pointers: u16,
        /// That list.
        list: List,
    },
}

impl Answered {
    /// The mode that the port is in. A combined port has a list in its place.
    pub fn mode(&self) -> Option<u8> {
        match self {
            Answered::Single(setup) => Some(setup.mode),
            Answered::Combined { .. } => None,
        }
    }
}

/// How a port's latest answer, a 47 or a 48, stands to its latest asking, a 41 or a list. The discriminant is the
/// state's number.
#[derive(Clone, Copy, Debug, PartialEq, Eq)]
#[repr(u8)]
pub enum State {
    /// Nothing asked.
    NothingAsked = 0,
    /// Asked, no answer since.
    Unanswered = 1,
    /// The latest answer came after the latest asking: a 47 to a 41 with equal mode, delta and notify, or a 48 to a list
    /// whose pointers name the whole list and no more.
    AsAsked = 2,
    /// The latest answer came after the latest asking, and differs.
    Otherwise = 3,
}

impl State {
    /// The state's number.
    pub const fn number(self) -> u8 {
        self as u8
    }
}

/// What a port is.
#[derive(Clone, Copy, Debug, PartialEq, Eq)]
pub enum Wiring {
    /// Physical, and no member of a virtual port.
    Unjoined,
    /// Physical, and a member of a virtual port.
    Joined {
        /// That virtual port.
        virtual_port: u8,
    },
    /// Virtual, with its two members as sent.
    Virtual {
        /// The first member.
        port_a: u8,
        /// The second member.
        port_b: u8,
    },
}

/// A port that is present.
#[derive(Clone, Copy, Debug, PartialEq, Eq)]
pub struct Port {
    /// Its device.
    pub device: u16,
    /// What it is.
    pub wiring: Wiring,
    /// Its state.
    pub state: State,
    /// What was last asked.
    pub asked: Option<Asked>,
    /// The number of the experiment that asked it, 0 before any asking.
    pub experiment: u16,
    /// The list that was last asked for. A 41 after it doesn't matter.
    pub list: Option<List>,
    /// What was last answered.
    pub answered: Option<Answered>,
}

/// What a dataset says.
#[derive(Clone, Copy, Debug, PartialEq, Eq)]
pub enum Value {
    /// A whole number, with its sign.
    Whole(i32),
    /// A float, as its 32 bits.
    Float(u32),
}

/// A dataset that is handed out.
#[derive(Clone, Copy, Debug, PartialEq, Eq)]
pub struct Dataset {
    /// The port that sent it.
    pub port: u8,
    /// The port's mode or, of a combined port, the mode of the dataset's entry.
    pub mode: u8,
    /// The port's state.
    pub state: State,
    /// The number of the experiment that asked for it, in state 2; else 0.
    pub experiment: u16,
    /// What it says.
    pub value: Value,
}
