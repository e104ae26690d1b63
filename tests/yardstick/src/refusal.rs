/// Why a message is refused: the number in the list of refusals, and a place in the message or, for a wrong size, the
/// size that was wanted.
#[derive(Clone, Copy, Debug, PartialEq, Eq)]
pub struct Refusal {
    /// The number in the list of refusals, never 0.
    pub number: u8,
    /// The place that is wrong: 1 for number 4, 2 for number 5, the field's first byte for number 7. For number 6 it is
    /// the size that was wanted, see [`Refusal::size`]. Else 0.
    pub place: usize,
}

impl Refusal {
    /// The slice has no byte.
    pub const NO_BYTE: Refusal = Refusal::new(1, 0);
    /// Bit 7 of byte 0 is set.
    pub const LENGTH_BIT: Refusal = Refusal::new(2, 0);
    /// Byte 0 differs from the slice's length or is under 3.
    pub const LENGTH: Refusal = Refusal::new(3, 0);
    /// Byte 1 isn't 0.
    pub const HUB_ID: Refusal = Refusal::new(4, 1);
    /// The type is unknown or doesn't go this way.
    pub const MESSAGE_TYPE: Refusal = Refusal::new(5, 2);
    /// The output is shorter than the message.
    pub const OUTPUT: Refusal = Refusal::new(8, 0);
    /// The table isn't sound.
    pub const TABLE: Refusal = Refusal::new(9, 0);
    /// The port named isn't present.
    pub const PORT_ABSENT: Refusal = Refusal::new(10, 0);
    /// An attached port is present already.
    pub const PORT_PRESENT: Refusal = Refusal::new(11, 0);
    /// A bad pair.
    pub const PAIR: Refusal = Refusal::new(12, 0);
    /// All sixteen records are in use.
    pub const FULL: Refusal = Refusal::new(13, 0);
    /// The port has no mode: none yet, or a list in its place.
    pub const NO_MODE: Refusal = Refusal::new(14, 0);
    /// That mode has no format yet.
    pub const NO_FORMAT: Refusal = Refusal::new(15, 0);
    /// Value bytes differ from datasets times width, or from the summed widths of a list's entries.
    pub const VALUE_SIZE: Refusal = Refusal::new(16, 0);
    /// No dataset of that number.
    pub const NO_DATASET: Refusal = Refusal::new(17, 0);
    /// A float dataset is an infinity or a NaN.
    pub const NOT_FINITE: Refusal = Refusal::new(18, 0);
    /// A log record is malformed.
    pub const LOG_RECORD: Refusal = Refusal::new(19, 0);
    /// A combined value names a port that isn't combined.
    pub const NOT_COMBINED: Refusal = Refusal::new(20, 0);
    /// A pointer outside the list or the latest 48, or no pointer, or no list.
    pub const POINTERS: Refusal = Refusal::new(21, 0);
    /// A command for two motors names a port that isn't virtual.
    pub const NOT_VIRTUAL: Refusal = Refusal::new(22, 0);
    /// The type is one that is read and no longer written.
    pub const READ_ONLY: Refusal = Refusal::new(23, 0);
    /// The one number that isn't in the list of refusals: the cells lent for an answer are too few, or the row given to
    /// writing is no message's own.
    pub const ROW: Refusal = Refusal::new(255, 0);

    /// The message is too short for its selectors, or has no size for them. `wanted` is the smallest size that the type
    /// and its selectors allow or, where the selectors don't fit, the smallest that holds them.
    pub const fn size(wanted: usize) -> Refusal {
        Refusal::new(6, wanted)
    }

    /// The field that starts at `place` is outside its list.
    pub const fn field(place: usize) -> Refusal {
        Refusal::new(7, place)
    }

    const fn new(number: u8, place: usize) -> Refusal {
        Refusal { number, place }
    }
}
