//! The table and the reader without a table give every answer that is written out by hand.

use yardstick::examples::{bytes, TableExample, TableStep, COMBINED, EXPERIMENTS, TABLES, WHOLE_NUMBERS};
use yardstick::traffic::compose;
use yardstick::{Form, MessageList, Refusal, Table, Way};

fn examples() -> impl Iterator<Item = &'static TableExample> {
    TABLES.iter().chain(EXPERIMENTS).chain(WHOLE_NUMBERS).chain(COMBINED)
}

#[test]
fn table_examples() {
    for example in examples() {
        let mut table = Table::default();
        for step in example.steps {
            let name = format!("{}: {step:?}", example.name);
            match *step {
                TableStep::Offer {
                    way,
                    message,
                    experiment,
                    answer,
                } => {
                    let before = table.clone();
                    assert_eq!(table.offer(way, &bytes(message), experiment), answer, "{name}");
                    assert!(answer.is_ok() || table == before, "{name}");
                }
                TableStep::HandOut {
                    way,
                    message,
                    number,
                    answer,
                } => assert_eq!(table.hand_out(way, &bytes(message), number), answer, "{name}"),
                TableStep::Port { port, answer } => assert_eq!(table.port(port), answer, "{name}"),
                TableStep::Format { port, mode, answer } => assert_eq!(table.format(port, mode), answer, "{name}"),
            }
        }
    }
}

#[test]
fn table_examples_without_a_table() {
    for example in examples() {
        let mut list = MessageList::default();
        for step in example.steps {
            let name = format!("{}: {step:?}", example.name);
            match *step {
                TableStep::Offer {
                    way,
                    message,
                    experiment,
                    answer,
                } => assert_eq!(list.push(way, &bytes(message), experiment), answer, "{name}"),
                TableStep::HandOut {
                    way,
                    message,
                    number,
                    answer,
                } => assert_eq!(list.hand_out(way, &bytes(message), number), answer, "{name}"),
                TableStep::Port { port, answer } => assert_eq!(list.port(port), answer, "{name}"),
                TableStep::Format { port, mode, answer } => assert_eq!(list.format(port, mode), answer, "{name}"),
            }
        }
    }
}

fn attach(port: u64) -> Vec<u8> {
    compose(Way::Up, Form::Attached, &[port, 1, 0x26, 0, 0], &[])
}

fn attach_virtual(port: u64, port_a: u64, port_b: u64) -> Vec<u8> {
    compose(Way::Up, Form::AttachedVirtual, &[port, 2, 0x26, port_a, port_b], &[])
}

fn detach(port: u64) -> Vec<u8> {
    compose(Way::Up, Form::Detached, &[port, 0], &[])
}

/// Offers a message that goes up to both. Panics unless they agree.
fn offer(table: &mut Table, list: &mut MessageList, message: &[u8]) -> Result<(), Refusal> {
    let answer = table.offer(Way::Up, message, 7);
    assert_eq!(list.push(Way::Up, message, 7), answer, "{message:02X?}");
    answer
}

#[test]
fn seventeenth_attachment() {
    let (mut table, mut list) = Default::default();
    for port in 0..16 {
        assert_eq!(offer(&mut table, &mut list, &attach(port)), Ok(()), "port {port}");
    }
    let full = table.clone();
    assert_eq!(offer(&mut table, &mut list, &attach(16)), Err(Refusal::FULL));
    assert_eq!(
        offer(&mut table, &mut list, &attach_virtual(16, 0, 1)),
        Err(Refusal::FULL)
    );
    // 11 and 12 come before 13.
    assert_eq!(offer(&mut table, &mut list, &attach(15)), Err(Refusal::PORT_PRESENT));
    assert_eq!(
        offer(&mut table, &mut list, &attach_virtual(16, 0, 0)),
        Err(Refusal::PAIR)
    );
    assert_eq!(table, full);
    assert_eq!(offer(&mut table, &mut list, &detach(5)), Ok(()));
    assert_eq!(offer(&mut table, &mut list, &attach(16)), Ok(()));
    assert_eq!(offer(&mut table, &mut list, &attach(17)), Err(Refusal::FULL));
}

#[test]
fn new_records_take_the_lowest_free_place() {
    let (mut table, mut list) = Default::default();
    for message in [
        attach(0),
        attach(1),
        attach_virtual(9, 0, 1),
        attach(2),
        attach(3),
        detach(1), // frees the second and, with the virtual port, the third place
        detach(0), // frees the first
        attach(5),
        attach(6),
        attach_virtual(9, 5, 3),
        attach(7),
    ] {
        assert_eq!(offer(&mut table, &mut list, &message), Ok(()), "{message:02X?}");
    }
    assert_eq!(table.ports().collect::<Vec<u8>>(), [5, 6, 9, 2, 3, 7]);
}
