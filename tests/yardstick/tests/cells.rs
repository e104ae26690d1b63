//! A table's cells: what is sound, and that tables come back from their cells.

use yardstick::examples::{COMBINED_SOUND, SOUND};
use yardstick::traffic::{Scene, Traffic};
use yardstick::{Answered, Refusal, Table, TABLE_CELLS};

#[test]
fn sound_examples() {
    for example in SOUND.iter().chain(COMBINED_SOUND) {
        let cells = example.cells();
        match Table::from_cells(&cells) {
            Ok(table) => {
                assert!(example.is_sound, "{} is taken as sound", example.name);
                assert_eq!(table.to_cells(), cells, "{}", example.name);
            }
            Err(refusal) => {
                assert_eq!(refusal, Refusal::TABLE);
                assert!(!example.is_sound, "{} is taken as unsound", example.name);
            }
        }
    }
}

#[test]
fn only_1008_cells_are_a_table() {
    assert_eq!(TABLE_CELLS, 1008);
    assert_eq!(Table::from_cells(&[0; 1008]), Ok(Table::default()));
    for length in [0, 1, 29, 63, 464, 945, 1007, 1009, 1071, 2016] {
        assert_eq!(
            Table::from_cells(&vec![0; length]),
            Err(Refusal::TABLE),
            "{length} cells"
        );
    }
}

#[test]
fn tables_come_back_from_their_cells() {
    let (mut records, mut numbers, mut combined) = (0, 0, 0);
    for seed in 0..40 {
        let mut traffic = Traffic::new(seed, Scene::ALL[seed as usize % Scene::ALL.len()]);
        let mut table = Table::default();
        for _ in 0..400 {
            let (way, message, experiment) = traffic.next(&table);
            // A refused message changes nothing.
            let _ = table.offer(way, &message, experiment);
            assert_eq!(Table::from_cells(&table.to_cells()).as_ref(), Ok(&table));
            records += table.ports().count();
            let has_number = |port: &u8| table.port(*port).is_some_and(|it| it.experiment != 0);
            numbers += table.ports().filter(has_number).count();
            let answered = |port: u8| table.port(port).and_then(|it| it.answered);
            let is_combined = |port: &u8| matches!(answered(*port), Some(Answered::Combined { .. }));
            combined += table.ports().filter(is_combined).count();
        }
    }
    println!("{records} records, {numbers} with an experiment number, {combined} combined");
    assert!(records >= 50_000);
    assert!(numbers >= 10_000);
    assert!(combined >= 3000);
}
