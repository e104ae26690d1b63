//! The product's table takes the experiment number of an accepted asking, and of no other message.

use differential::LentTable;
use yardstick::traffic::{Scene, Traffic};
use yardstick::{decode, Form, Table, RECORD_CELLS};

/// What asks a port for something: a 41, and a 42 with sub command 1.
const ASKINGS: [Form; 2] = [Form::InputFormatSetup, Form::ModeDatasets];

/// Numbers that a message may come with.
const NUMBERS: [u16; 5] = [0, 1, 0x0100, 0x0102, u16::MAX];

/// The cell of a record that has the number.
const NUMBER: usize = 9;

/// A message that is no accepted asking leaves the same cells whatever its number. An asking leaves cells that differ in
/// the number of its port alone. The answer never hangs on the number.
#[test]
fn only_an_accepted_asking_leaves_its_number() {
    let [mut asked, mut others, mut refused] = [0, 0, 0];
    for seed in 501..561 {
        let mut traffic = Traffic::new(seed, Scene::ALL[seed as usize % Scene::ALL.len()]);
        let (mut table, mut product) = (Table::default(), LentTable::empty());
        for _ in 0..300 {
            let (way, message, experiment) = traffic.next(&table);
            // The table guides the messages; a refused one changes nothing.
            let _ = table.offer(way, &message, experiment);
            let mut after = product.clone();
            let answer = after.offer(way, &message, experiment);
            let is_asking = decode(way, &message).is_ok_and(|it| ASKINGS.contains(&it.form));
            for number in NUMBERS {
                let mut other = product.clone();
                let name = format!("{message:02X?} {way:?} with {number}");
                assert_eq!(other.offer(way, &message, number), answer, "{name}");
                if answer == 0 && is_asking {
                    let place = table
                        .to_cells()
                        .chunks_exact(RECORD_CELLS)
                        .position(|cells| cells[0] != 0 && cells[1] == u32::from(message[3]));
                    let cell = place.expect("the port is present") * RECORD_CELLS + NUMBER;
                    assert_eq!(other.cells()[cell], number.into(), "{name}");
                    other.set(cell, experiment.into());
                }
                assert_eq!(other.cells(), after.cells(), "{name}");
            }
            match answer {
                0 if is_asking => asked += 1,
                0 => others += 1,
                _ => refused += 1,
            }
            product = after;
        }
    }
    println!("{asked} askings, {others} other accepted messages, {refused} refused ones");
    assert!(asked >= 1000 && others >= 5000 && refused >= 2000);
}
