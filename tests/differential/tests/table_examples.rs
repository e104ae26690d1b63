//! All programs give every answer about tables that is written out by hand.

use differential::{dataset_cells, format_cells, offer_answer, port_cells, LentTable, TableTally, Trio, PORT_CELLS};
use yardstick::examples::{bytes, TableStep, COMBINED, EXPERIMENTS, TABLES, WHOLE_NUMBERS};
use yardstick::traffic::compose;
use yardstick::{Form, Refusal, Way, RECORD_CELLS};

#[test]
fn table_examples() {
    let mut tally = TableTally::default();
    let examples = TABLES.iter().chain(EXPERIMENTS).chain(WHOLE_NUMBERS).chain(COMBINED);
    for example in examples {
        let mut product = LentTable::empty();
        let mut trio = Trio::default();
        for step in example.steps {
            let name = format!("{}: {step:?}", example.name);
            match *step {
                TableStep::Offer {
                    way,
                    message,
                    experiment,
                    answer,
                } => {
                    let message = bytes(message);
                    let by_product = product.offer(way, &message, experiment);
                    assert_eq!(by_product, offer_answer(answer), "{name}");
                    trio.offer(&mut tally, way, &message, experiment);
                }
                TableStep::HandOut {
                    way,
                    message,
                    number,
                    answer,
                } => {
                    let message = bytes(message);
                    assert_eq!(product.dataset(way, &message, number), dataset_cells(answer), "{name}");
                    trio.hand_out(&mut tally, way, &message, number);
                    trio.hand_out_all(&mut tally, way, &message);
                }
                TableStep::Port { port, answer } => {
                    assert_eq!(product.port(port), port_cells(Ok(answer)), "{name}");
                    trio.compare_port(&mut tally, port);
                }
                TableStep::Format { port, mode, answer } => {
                    assert_eq!(product.format(port, mode), format_cells(Ok(answer)), "{name}");
                }
            }
        }
        trio.compare_all_ports(&mut tally);
    }
    println!("{tally}");
    tally.expect_offered([0, 1, 4, 5, 6, 7, 10, 11, 12, 14, 15, 16, 17, 20, 21], 1);
    tally.expect_handed_out([0, 1, 2, 3, 4, 5, 6, 7, 11, 14, 16, 17, 18, 20, 21], 1);
    tally.expect_ports(1);
    tally.expect_experiments(1);
    tally.expect_combined(1);
}

fn attach(port: u64) -> Vec<u8> {
    compose(Way::Up, Form::Attached, &[port, 1, 0x26, 0, 0], &[])
}

fn attach_virtual(port: u64, port_a: u64, port_b: u64) -> Vec<u8> {
    compose(Way::Up, Form::AttachedVirtual, &[port, 2, 0x26, port_a, port_b], &[])
}

fn detach(port: u64) -> Vec<u8> {
    compose(Way::Up, Form::Detached, &[port, 0], &[])
}

/// Offers a message that goes up, which has to get the answer.
fn expect(product: &mut LentTable, message: &[u8], answer: Result<(), Refusal>) {
    assert_eq!(
        product.offer(Way::Up, message, 7),
        offer_answer(answer),
        "{message:02X?}"
    );
}

#[test]
fn seventeenth_attachment() {
    let mut product = LentTable::empty();
    for port in 0..16 {
        expect(&mut product, &attach(port), Ok(()));
    }
    expect(&mut product, &attach(16), Err(Refusal::FULL));
    expect(&mut product, &attach_virtual(16, 0, 1), Err(Refusal::FULL));
    // 11 and 12 come before 13.
    expect(&mut product, &attach(15), Err(Refusal::PORT_PRESENT));
    expect(&mut product, &attach_virtual(16, 0, 0), Err(Refusal::PAIR));
    assert_eq!(product.port(16), Ok([0; PORT_CELLS]));
    assert_eq!(product.ports(), Ok((0..16).collect()));
    expect(&mut product, &detach(5), Ok(()));
    expect(&mut product, &attach(16), Ok(()));
    expect(&mut product, &attach(17), Err(Refusal::FULL));
    assert!(product.port(16).is_ok_and(|cells| cells[0] == 1));
    // Port 16 has taken the place of port 5, and comes last.
    assert_eq!(product.ports(), Ok((0..=16).filter(|&port| port != 5).collect()));
}

/// The sixteenth record may be a virtual port's.
#[test]
fn sixteenth_record_is_virtual() {
    let mut product = LentTable::empty();
    for port in 0..15 {
        expect(&mut product, &attach(port), Ok(()));
    }
    expect(&mut product, &attach_virtual(255, 14, 0), Ok(()));
    expect(&mut product, &attach(15), Err(Refusal::FULL));
    // With a member goes its virtual port, so two places are free.
    expect(&mut product, &detach(14), Ok(()));
    expect(&mut product, &attach(15), Ok(()));
    expect(&mut product, &attach(16), Ok(()));
    expect(&mut product, &attach(17), Err(Refusal::FULL));
}

/// The ports in the order of their places, none for a free place.
fn places(product: &LentTable) -> Vec<Option<u32>> {
    let records = product.cells().chunks_exact(RECORD_CELLS);
    let port = |cells: &[u32]| (cells[0] != 0).then_some(cells[1]);
    records.map(port).collect()
}

#[test]
fn new_records_take_the_lowest_free_place() {
    let mut product = LentTable::empty();
    for message in [
        attach(0),
        attach(1),
        attach_virtual(9, 0, 1),
        attach(2),
        attach(3),
        detach(1), // frees the second and, with the virtual port, the third place
        detach(0), // frees the first
        attach(5),
        attach(6),
        attach_virtual(9, 5, 3),
        attach(7),
        detach(6),
    ] {
        expect(&mut product, &message, Ok(()));
    }
    let mut expected = [Some(5), None, Some(9), Some(2), Some(3), Some(7)].to_vec();
    expected.resize(16, None);
    assert_eq!(places(&product), expected);
    assert_eq!(product.ports(), Ok(vec![2, 3, 5, 7, 9]));
    // The freed place equals one in an empty table.
    assert_eq!(product.cells()[RECORD_CELLS..][..RECORD_CELLS], [0; RECORD_CELLS]);
}

/// Every cell of a record, as the header says.
#[test]
fn cells_of_a_record() {
    let mut product = LentTable::empty();
    let messages = [
        (Way::Up, "0F 00 04 FE 01 34 12 00 00 00 10 00 00 00 10"),
        (Way::Up, "0F 00 04 07 01 78 56 00 00 00 10 00 00 00 10"),
        (Way::Up, "09 00 04 80 02 BC 9A FE 07"),
        (Way::Down, "0A 00 41 FE 0F 04 03 02 01 01"),
        (Way::Up, "0A 00 47 FE 0E 08 07 06 05 00"),
        (Way::Up, "0A 00 44 FE 00 80 10 03 FF FE"),
        (Way::Up, "0A 00 44 FE 0F 80 01 00 02 03"),
    ];
    for (index, (way, message)) in messages.into_iter().enumerate() {
        // The 41 is the fourth.
        let experiment = 0xABC0 + index as u16;
        assert_eq!(product.offer(way, &bytes(message), experiment), 0, "{message}");
    }
    let mut first = [0; RECORD_CELLS];
    first[..14].copy_from_slice(&[
        2,
        0xFE,
        0x1234,
        0x80,
        0,
        3,
        16,
        0x0102_0304,
        1,
        0xABC3,
        15,
        0x0506_0708,
        0,
        0xFEFF_0310,
    ]);
    first[28] = 0x0302_0001;
    // The list of the fourth, and the one that was taken over before it.
    let messages = [
        (Way::Up, "0F 00 04 C8 01 25 00 00 00 00 10 00 00 00 10"),
        (Way::Down, "09 00 42 C8 01 07 10 FF 00"),
        (Way::Up, "07 00 48 C8 80 05 00"),
        (
            Way::Down,
            "16 00 42 C8 01 07 00 01 02 03 04 05 06 07 08 09 0A 0B 0C 0D 0E 0F",
        ),
    ];
    for (index, (way, message)) in messages.into_iter().enumerate() {
        let experiment = 0xBCD0 + index as u16;
        assert_eq!(product.offer(way, &bytes(message), experiment), 0, "{message}");
    }
    let mut fourth = [0; RECORD_CELLS];
    fourth[..13].copy_from_slice(&[1, 0xC8, 0x25, 0, 0, 1, 17, 0, 0, 0xBCD3, 17, 5, 0]);
    fourth[29..46].copy_from_slice(&[16, 0, 1, 2, 3, 4, 5, 6, 7, 8, 9, 10, 11, 12, 13, 14, 15]);
    fourth[46..50].copy_from_slice(&[3, 0x10, 0xFF, 0]);
    let mut second = [0; RECORD_CELLS];
    second[..4].copy_from_slice(&[2, 7, 0x5678, 0x80]);
    let mut third = [0; RECORD_CELLS];
    third[..5].copy_from_slice(&[3, 0x80, 0x9ABC, 0xFE, 7]);
    let records: Vec<&[u32]> = product.cells().chunks_exact(RECORD_CELLS).collect();
    assert_eq!(records[..4], [first, second, third, fourth]);
}
