//! Answers of the second program as the product lays them out.

use yardstick::{Answered, Asked, Dataset, Format, List, Port, Refusal, Setup, Value, Wiring};

use crate::answer::{answer, refused, Filled};
use crate::castanetash::{port_cell, DATASET_CELLS, FORMAT_CELLS, PORT_CELLS};

/// The answer to an offered message.
pub fn offer_answer(offered: Result<(), Refusal>) -> u64 {
    answer(offered.map(|()| 0))
}

/// Kind of value, value, port, mode, state, experiment number.
pub fn dataset_cells(handed_out: Result<Dataset, Refusal>) -> Filled<DATASET_CELLS> {
    handed_out.map(cells_of).map_err(refused)
}

/// The same of all datasets, one after the other.
pub fn values_cells(handed_out: Result<Vec<Dataset>, Refusal>) -> Result<Vec<u64>, u64> {
    match handed_out {
        Ok(datasets) => Ok(datasets.into_iter().flat_map(cells_of).collect()),
        Err(refusal) => Err(refused(refusal)),
    }
}

/// A whole number is in two's complement of 64 bits.
fn cells_of(dataset: Dataset) -> [u64; DATASET_CELLS] {
    let (kind, value) = match dataset.value {
        Value::Whole(number) => (0, i64::from(number) as u64),
        Value::Float(bits) => (1, bits.into()),
    };
    [
        kind,
        value,
        dataset.port.into(),
        dataset.mode.into(),
        dataset.state.number().into(),
        dataset.experiment.into(),
    ]
}

/// Wiring, device, partner, second member, state, then how something was asked, its mode, delta and notify, then the
/// same of the answer, then the experiment number, the pointers, the list and the list that was taken over. All is 0 for
/// an absent port.
pub fn port_cells(asked: Result<Option<Port>, Refusal>) -> Filled<PORT_CELLS> {
    let mut cells = [0; PORT_CELLS];
    if let Some(port) = asked.map_err(refused)? {
        let [wiring, partner, second] = match port.wiring {
            Wiring::Unjoined => [1, 0, 0],
            Wiring::Joined { virtual_port } => [2, virtual_port, 0],
            Wiring::Virtual { port_a, port_b } => [3, port_a, port_b],
        };
        cells[0] = wiring.into();
        cells[1] = port.device.into();
        cells[2] = partner.into();
        cells[3] = second.into();
        cells[4] = port.state.number().into();
        let asked = match port.asked {
            None => [0; 4],
            Some(Asked::Single(setup)) => setup_cells(setup),
            Some(Asked::List) => [2, 0, 0, 0],
        };
        cells[5..9].copy_from_slice(&asked);
        let (answered, pointers, taken) = match port.answered {
            None => ([0; 4], 0, None),
            Some(Answered::Single(setup)) => (setup_cells(setup), 0, None),
            Some(Answered::Combined { pointers, list }) => ([2, 0, 0, 0], pointers, Some(list)),
        };
        cells[9..13].copy_from_slice(&answered);
        cells[13] = port.experiment.into();
        cells[port_cell::POINTERS] = pointers.into();
        put_list(&mut cells[port_cell::LIST..port_cell::TAKEN], port.list);
        put_list(&mut cells[port_cell::TAKEN..], taken);
    }
    Ok(cells)
}

fn setup_cells(setup: Setup) -> [u64; 4] {
    [1, setup.mode.into(), setup.delta.into(), setup.notify.into()]
}

/// The count, then the entries. The other cells are left as they are.
fn put_list(cells: &mut [u64], list: Option<List>) {
    if let Some(list) = list {
        cells[0] = list.entries().len() as u64;
        for (cell, &entry) in cells[1..].iter_mut().zip(list.entries()) {
            *cell = entry.into();
        }
    }
}

/// Whether the format is known, datasets, kind, figures, decimals.
pub fn format_cells(asked: Result<Option<Format>, Refusal>) -> Filled<FORMAT_CELLS> {
    Ok(match asked.map_err(refused)? {
        None => [0; FORMAT_CELLS],
        Some(format) => [
            1,
            format.datasets.into(),
            format.kind.into(),
            format.figures.into(),
            format.decimals.into(),
        ],
    })
}
