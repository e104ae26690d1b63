//! The edges of the table's calls: how many cells are lent for an answer, how the way is told, and every experiment
//! number.

use differential::{
    castanetash_dataset, castanetash_format, castanetash_offer, castanetash_port, castanetash_ports,
    castanetash_values, dataset_cells, format_cells, number, offer_answer, port_cells, refused, values_cells, Lent,
    BAD_ROW, DATASET_CELLS, FORMAT_CELLS, PORT_CELLS,
};
use yardstick::examples::{bytes, SoundExample, COMBINED_SOUND, SOUND};
use yardstick::{Table, TableCells, Way, RECORD_CELLS};

/// Makes a call with fewer, as many and more cells than it fills. It has to give the answer and change nothing else.
fn expect(name: &str, expected: Result<&[u64], u64>, written: u64, mut call: impl FnMut(&mut [u64]) -> u64) {
    let wanted = expected.map_or(0, <[u64]>::len);
    for length in 0..wanted + 12 {
        let name = format!("{name}, {length} cells");
        let mut row = Lent::filled(length);
        let answer = call(row.lend());
        match expected {
            Ok(cells) if length >= wanted => {
                assert_eq!(answer, written, "{name}");
                row.expect(cells, &name);
            }
            Ok(_) => {
                assert_eq!(answer, BAD_ROW, "{name}");
                row.expect_unchanged(&name);
            }
            Err(refusal) => {
                assert_eq!(answer, refusal, "{name}");
                row.expect_unchanged(&name);
            }
        }
    }
}

/// The same with bytes, which are the ports.
fn expect_ports(name: &str, expected: Result<&[u8], u64>, mut call: impl FnMut(&mut [u8]) -> u64) {
    let wanted = expected.map_or(0, <[u8]>::len);
    for length in 0..wanted + 12 {
        let name = format!("{name}, {length} bytes");
        // Each byte is another than the port that is to stand there.
        let mut filling = vec![0x5A; length];
        for (byte, port) in filling.iter_mut().zip(expected.unwrap_or_default()) {
            *byte = !port;
        }
        let mut ports = Lent::holding(&filling);
        let answer = call(ports.lend());
        match expected {
            Ok(present) if length >= wanted => {
                assert_eq!(answer, wanted as u64, "{name}");
                ports.expect(present, &name);
            }
            Ok(_) => {
                assert_eq!(answer, BAD_ROW, "{name}");
                ports.expect_unchanged(&name);
            }
            Err(refusal) => {
                assert_eq!(answer, refusal, "{name}");
                ports.expect_unchanged(&name);
            }
        }
    }
}

/// Sound tables and tables that aren't, with ports of every wiring, and messages with and without a value.
#[test]
fn only_the_first_cells_change() {
    let messages = [
        "",
        "03 00 12",
        "04 01 12",
        "04 00 45 02",
        "05 00 45 0A 00",
        "05 00 45 02 07",
        "05 00 45 02 FD",
        "05 00 45 FF 01",
        "07 00 45 04 07 08 FD",
    ];
    // Ports 2 and 4, at places 8 and 10, are in mode 0, which now has one dataset of 8 bits, and three.
    let formats = [(8, 0, 1), (10, 0, 3)];
    let calls = expect_first_cells(SOUND, &formats, &[0, 1, 2, 3, 16, 200, 255], &messages);
    println!("{calls} calls of each length");
    assert!(calls >= 3000);
}

/// The same of tables with lists.
#[test]
fn only_the_first_cells_change_with_lists() {
    let messages = [
        "03 00 12",
        "06 00 46 01 01 00",
        "05 00 45 01 07",
        "07 00 46 00 01 00 80",
        "07 00 46 01 01 00 80",
        "08 00 46 01 01 00 80 00",
        "09 00 46 01 03 00 80 FE FF",
        "08 00 46 03 02 00 FE FF",
        "07 00 46 02 02 00 80",
        "07 00 48 06 00 01 00",
    ];
    // Ports 1 and 3, at these places, have one dataset of 8 bits in mode 1, and two of 16 bits in mode 2.
    let formats = [(1, 1, 0x0001), (1, 2, 0x0102), (3, 1, 0x0001), (3, 2, 0x0102)];
    let calls = expect_first_cells(COMBINED_SOUND, &formats, &[0, 1, 3, 5, 8, 10, 15], &messages);
    println!("{calls} calls of each length, with lists");
    assert!(calls >= 3000);
}

/// Makes every call on the examples, with these formats by place, mode and cell. Gives how many calls of each length
/// there were.
fn expect_first_cells(
    examples: &[SoundExample],
    formats: &[(usize, usize, u32)],
    ports: &[u8],
    messages: &[&str],
) -> u64 {
    /// The cell of a record that has the format of mode 0.
    const FORMATS: usize = 13;
    let mut calls = 0;
    for example in examples {
        let mut cells = example.cells();
        for (place, mode, format) in formats {
            cells[place * RECORD_CELLS + FORMATS + mode] = *format;
        }
        let unchanged = cells;
        let table = Table::from_cells(&cells);
        let table = table.as_ref().map_err(|&refusal| refusal);
        assert_eq!(table.is_ok(), example.is_sound, "{}", example.name);
        for &port in ports {
            let name = format!("{}, port {port}", example.name);
            let answer = port_cells(table.map(|table| table.port(port)));
            let answer = answer.as_ref().map(|cells| &cells[..]).map_err(|&it| it);
            expect(&name, answer, PORT_CELLS as u64, |row| {
                castanetash_port(&mut cells, port, row)
            });
            for mode in [0, 1, 15, 16, 255] {
                let answer = format_cells(table.map(|table| table.format(port, mode)));
                let answer = answer.as_ref().map(|cells| &cells[..]).map_err(|&it| it);
                expect(&name, answer, FORMAT_CELLS as u64, |row| {
                    castanetash_format(&mut cells, port, mode, row)
                });
                calls += 1;
            }
        }
        for message in messages {
            let name = format!("{}, `{message}`", example.name);
            let message = bytes(message);
            for number in [0, 1] {
                let answer = dataset_cells(table.and_then(|table| table.hand_out(Way::Up, &message, number)));
                let answer = answer.as_ref().map(|cells| &cells[..]).map_err(|&it| it);
                expect(&name, answer, DATASET_CELLS as u64, |row| {
                    castanetash_dataset(&mut cells, &message, 1, number, row)
                });
                calls += 1;
            }
            let answer = values_cells(table.and_then(|table| table.values(Way::Up, &message)));
            let answer = answer.as_ref().map(|cells| &cells[..]).map_err(|&it| it);
            let datasets = answer.map_or(0, |cells| cells.len() / DATASET_CELLS) as u64;
            expect(&name, answer, datasets, |rows| {
                castanetash_values(&mut cells, &message, 1, rows)
            });
            calls += 1;
        }
        let mut ports: Vec<u8> = table.iter().flat_map(|table| table.ports()).collect();
        ports.sort_unstable();
        let answer = table.map(|_| &ports[..]).map_err(refused);
        expect_ports(example.name, answer, |ports| castanetash_ports(&mut cells, ports));
        calls += 1;
        assert_eq!(cells, unchanged, "{}", example.name);
    }
    calls
}

/// A sound table in which port 11, at place 14, is in mode 0, which has one dataset of 8 bits.
fn with_value() -> TableCells {
    let mut cells = SOUND[0].cells();
    cells[14 * RECORD_CELLS + 13] = 1;
    cells
}

#[test]
fn way_0_is_down_and_any_other_up() {
    let mut cells = with_value();
    let table = Table::from_cells(&cells).expect("a sound table");
    for message in ["03 00 12", "04 00 13 00", "04 00 02 30", "05 00 45 0B 01"] {
        let message = bytes(message);
        let mut answers = Vec::new();
        for byte in 0..=255 {
            let way = if byte == 0 { Way::Down } else { Way::Up };
            let name = format!("{message:02X?}, way {byte}");
            let mut after = table.clone();
            let answer = offer_answer(after.offer(way, &message, 7));
            let mut lent = cells;
            assert_eq!(castanetash_offer(&mut lent, &message, byte, 7), answer, "{name}");
            assert_eq!(lent, after.to_cells(), "{name}");
            let mut row = Lent::filled(DATASET_CELLS);
            let handed_out = castanetash_dataset(&mut cells, &message, byte, 0, row.lend());
            let mut rows = Lent::filled(DATASET_CELLS);
            let whole = castanetash_values(&mut cells, &message, byte, rows.lend());
            match dataset_cells(table.hand_out(way, &message, 0)) {
                Ok(dataset) => {
                    assert_eq!([handed_out, whole], [DATASET_CELLS as u64, 1], "{name}");
                    row.expect(&dataset, &name);
                    rows.expect(&dataset, &name);
                }
                Err(refusal) => {
                    assert_eq!([handed_out, whole], [refusal; 2], "{name}");
                    row.expect_unchanged(&name);
                    rows.expect_unchanged(&name);
                }
            }
            answers.push([answer, handed_out, whole]);
        }
        assert_ne!(answers[0], answers[1], "{message:02X?} each way");
    }
    assert_eq!(cells, with_value());
}

/// Every experiment number comes back from the table's cells, from the port and, in state 2, from the value.
#[test]
fn every_experiment_number() {
    let mut cells = with_value();
    let [ask, answer, value] = [
        "0A 00 41 0B 00 01 00 00 00 01",
        "0A 00 47 0B 00 01 00 00 00 01",
        "05 00 45 0B 01",
    ]
    .map(bytes);
    for experiment in 0..=u16::MAX {
        let asked = u64::from(experiment);
        let (mut port, mut dataset, mut rows) = ([u64::MAX; PORT_CELLS], [u64::MAX; DATASET_CELLS], [u64::MAX; 6]);
        // The number of the answer is another.
        for (message, way, given, state) in [(&ask, 0, experiment, 1), (&answer, 1, !experiment, 2)] {
            assert_eq!(castanetash_offer(&mut cells, message, way, given), 0);
            assert_eq!(cells[14 * RECORD_CELLS + 9], experiment.into());
            let answers = [
                castanetash_port(&mut cells, 11, &mut port),
                castanetash_dataset(&mut cells, &value, 1, 0, &mut dataset),
                castanetash_values(&mut cells, &value, 1, &mut rows),
            ];
            let name = format!("experiment {experiment} in state {state}");
            assert_eq!(answers.map(number), [0; 3], "{name}");
            assert_eq!([port[4], port[13]], [state, asked], "{name}");
            let carried = if state == 2 { asked } else { 0 };
            assert_eq!(dataset, [0, 1, 11, 0, state, carried], "{name}");
            assert_eq!(rows, dataset, "{name}");
        }
    }
}
