use yardstick::traffic::compose;
use yardstick::{Form, Way};

/// The port, the greatest there is.
pub const PORT: u64 = 255;

/// Its mode, the greatest there is.
pub const MODE: u64 = 15;

/// The number of the experiment that asked for the values, the greatest there is.
pub const EXPERIMENT: u16 = u16::MAX;

/// What makes the port send values of a format, as asked. The first attaches it.
pub fn messages(datasets: usize, kind: u64) -> [(Way, Vec<u8>); 4] {
    let setup = [PORT, MODE, 1, 1];
    let format = [PORT, MODE, 0x80, datasets as u64, kind, 5, 1];
    [
        (Way::Up, Form::Attached, &[PORT, 1, 0x26, 0, 0][..]),
        (Way::Up, Form::ValueFormat, &format),
        (Way::Down, Form::InputFormatSetup, &setup),
        (Way::Up, Form::InputFormat, &setup),
    ]
    .map(|(way, form, values)| (way, compose(way, form, values, &[])))
}

/// A value of the port, which goes up.
pub fn value(datasets: &[Vec<u8>]) -> Vec<u8> {
    compose(Way::Up, Form::PortValue, &[PORT], &datasets.concat())
}
