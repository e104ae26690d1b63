use crate::answer::{Answered, Asked, Dataset, Format, List, Port, Setup, State, Value, Wiring};
use crate::refusal::Refusal;
use crate::way::Way;

/// What is done with a table that is empty at the start.
pub struct TableExample {
    /// What it shows.
    pub name: &'static str,
    /// The steps, in their order.
    pub steps: &'static [TableStep],
}

/// One call, with its answer.
#[derive(Debug)]
pub enum TableStep {
    /// A message is offered.
    Offer {
        /// The message's way.
        way: Way,
        /// The message's bytes in hex.
        message: &'static str,
        /// The experiment number that comes with it.
        experiment: u16,
        /// The answer.
        answer: Result<(), Refusal>,
    },
    /// A dataset of a message is handed out.
    HandOut {
        /// The message's way.
        way: Way,
        /// The message's bytes in hex.
        message: &'static str,
        /// The dataset's number.
        number: usize,
        /// The answer.
        answer: Result<Dataset, Refusal>,
    },
    /// What is held about a port.
    Port {
        /// The port.
        port: u8,
        /// The answer, none for a port that isn't present.
        answer: Option<Port>,
    },
    /// The format of a port's mode.
    Format {
        /// The port.
        port: u8,
        /// The mode.
        mode: u8,
        /// The answer, none for a format that isn't known.
        answer: Option<Format>,
    },
}

/// An accepted message with experiment number 0.
pub(super) const fn accepted(way: Way, message: &'static str) -> TableStep {
    accepted_in(0, way, message)
}

pub(super) const fn accepted_in(experiment: u16, way: Way, message: &'static str) -> TableStep {
    TableStep::Offer {
        way,
        message,
        experiment,
        answer: Ok(()),
    }
}

/// A refused message with experiment number 0.
pub(super) const fn refused(way: Way, message: &'static str, number: u8, place: usize) -> TableStep {
    refused_in(0, way, message, number, place)
}

pub(super) const fn refused_in(
    experiment: u16,
    way: Way,
    message: &'static str,
    number: u8,
    place: usize,
) -> TableStep {
    TableStep::Offer {
        way,
        message,
        experiment,
        answer: Err(Refusal { number, place }),
    }
}

/// A dataset of a 45 or a 46, which goes up, with experiment number 0.
pub(super) const fn handed_out(
    message: &'static str,
    number: usize,
    port_and_mode: [u8; 2],
    state: State,
    value: Value,
) -> TableStep {
    handed_out_in(0, message, number, port_and_mode, state, value)
}

pub(super) const fn handed_out_in(
    experiment: u16,
    message: &'static str,
    number: usize,
    [port, mode]: [u8; 2],
    state: State,
    value: Value,
) -> TableStep {
    TableStep::HandOut {
        way: Way::Up,
        message,
        number,
        answer: Ok(Dataset {
            port,
            mode,
            state,
            experiment,
            value,
        }),
    }
}

pub(super) const fn withheld(way: Way, message: &'static str, number: usize, refusal: u8, place: usize) -> TableStep {
    TableStep::HandOut {
        way,
        message,
        number,
        answer: Err(Refusal { number: refusal, place }),
    }
}

/// A port of device 26 to which nothing was asked and which has answered nothing.
pub(super) const fn bare(port: u8, wiring: Wiring) -> TableStep {
    set_up(port, wiring, State::NothingAsked, None, None)
}

/// A port of device 26 with its setups and experiment number 0.
pub(super) const fn set_up(
    port: u8,
    wiring: Wiring,
    state: State,
    asked: Option<Setup>,
    answered: Option<Setup>,
) -> TableStep {
    set_up_in(0, port, wiring, state, asked, answered)
}

pub(super) const fn set_up_in(
    experiment: u16,
    port: u8,
    wiring: Wiring,
    state: State,
    asked: Option<Setup>,
    answered: Option<Setup>,
) -> TableStep {
    TableStep::Port {
        port,
        answer: Some(Port {
            device: 0x26,
            wiring,
            state,
            asked: match asked {
                Some(setup) => Some(Asked::Single(setup)),
                None => None,
            },
            experiment,
            list: None,
            answered: single(answered),
        }),
    }
}

/// A port of device 26 that isn't joined and keeps a list, with its experiment number.
pub(super) const fn with_list(
    experiment: u16,
    port: u8,
    state: State,
    asked: Asked,
    list: &[u8],
    answered: Option<Answered>,
) -> TableStep {
    TableStep::Port {
        port,
        answer: Some(Port {
            device: 0x26,
            wiring: Wiring::Unjoined,
            state,
            asked: Some(asked),
            experiment,
            list: Some(List::new(list)),
            answered,
        }),
    }
}

/// The answer of a 47.
pub(super) const fn single(setup: Option<Setup>) -> Option<Answered> {
    match setup {
        Some(setup) => Some(Answered::Single(setup)),
        None => None,
    }
}

/// The answer of a 48 that took over a list.
pub(super) const fn combined(pointers: u16, list: &[u8]) -> Option<Answered> {
    let list = List::new(list);
    Some(Answered::Combined { pointers, list })
}

pub(super) const fn absent(port: u8) -> TableStep {
    TableStep::Port { port, answer: None }
}

pub(super) const fn format(port: u8, mode: u8, [datasets, kind, figures, decimals]: [u8; 4]) -> TableStep {
    let answer = Some(Format {
        datasets,
        kind,
        figures,
        decimals,
    });
    TableStep::Format { port, mode, answer }
}

pub(super) const fn no_format(port: u8, mode: u8) -> TableStep {
    TableStep::Format {
        port,
        mode,
        answer: None,
    }
}

pub(super) const fn setup(mode: u8, delta: u32, notify: bool) -> Option<Setup> {
    Some(Setup { mode, delta, notify })
}
