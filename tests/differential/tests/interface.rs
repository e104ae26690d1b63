//! The edges of reading: how many cells are lent for the row, and how the way is told.

use differential::{castanetash_read, read, row_answer, Filling, Lent, BAD_ROW, ROW_CELLS};
use yardstick::examples::{BENCH, FORMS, ORDER, SIZES};
use yardstick::{decode, Way};

/// Every number of cells from none to twice a row's. Only an accepted message with a whole row changes cells, and only
/// those of the row; a refused message's own refusal comes before that of a short row.
#[test]
fn only_the_first_cells_change() {
    let [mut accepted, mut refused, mut too_short] = [0, 0, 0];
    for example in BENCH.iter().chain(FORMS).chain(ORDER).chain(SIZES) {
        let mut message = Lent::holding(&example.bytes());
        let way = u8::from(example.way == Way::Up);
        let expected = row_answer(&example.answer());
        for length in 0..=2 * ROW_CELLS {
            let name = format!("`{}` {:?}, {length} cells", example.message, example.way);
            let mut row = Lent::filled(length);
            let answer = castanetash_read(message.lend(), way, row.lend());
            message.expect_unchanged(&name);
            match expected {
                Ok(cells) if length >= ROW_CELLS => {
                    assert_eq!(answer, ROW_CELLS as u64, "{name}");
                    row.expect(&cells, &name);
                    accepted += 1;
                }
                Ok(_) => {
                    assert_eq!(answer, BAD_ROW, "{name}");
                    row.expect_unchanged(&name);
                    too_short += 1;
                }
                Err(refusal) => {
                    assert_eq!(answer, refusal, "{name}");
                    row.expect_unchanged(&name);
                    refused += 1;
                }
            }
        }
    }
    println!("{accepted} accepted, {refused} refused, {too_short} with too short a row");
    assert!(accepted >= 1000 && refused >= 1000 && too_short >= 1000);
}

#[test]
fn way_0_is_down_and_any_other_up() {
    for message in [
        &[0x03, 0x00, 0x12][..],
        &[0x04, 0x00, 0x13, 0x00],
        &[0x04, 0x00, 0x02, 0x30],
    ] {
        for byte in 0..=255 {
            let way = if byte == 0 { Way::Down } else { Way::Up };
            let name = format!("{message:02X?}, way {byte}");
            let mut row = Lent::filled(ROW_CELLS);
            let answer = castanetash_read(message, byte, row.lend());
            match row_answer(&decode(way, message)) {
                Ok(cells) => {
                    assert_eq!(answer, ROW_CELLS as u64, "{name}");
                    row.expect(&cells, &name);
                }
                Err(refusal) => {
                    assert_eq!(answer, refusal, "{name}");
                    row.expect_unchanged(&name);
                }
            }
        }
        assert_ne!(read(Way::Down, message), read(Way::Up, message), "{message:?} each way");
    }
}

/// What stands in the lent cells is never what an accepted message puts there.
#[test]
fn no_row_has_the_filling() {
    for example in FORMS {
        let row = example.answer().expect("the examples of forms are accepted").row();
        for place in 0..100 {
            assert!(!row.contains(&u64::filling(place)), "`{}`", example.message);
        }
    }
}

/// The numbers of the declarations for Rust.
#[test]
fn declarations() {
    use differential::castanetash as declared;
    assert_eq!([declared::DOWN, declared::UP], [0, 1]);
    assert_eq!(declared::LONGEST, 127);
    assert_eq!(declared::ROW_CELLS, yardstick::ROW_CELLS);
    assert_eq!(declared::TABLE_CELLS, yardstick::TABLE_CELLS);
    assert_eq!(
        [declared::DATASET_CELLS, declared::PORT_CELLS, declared::FORMAT_CELLS],
        [6, 49, 5]
    );
    assert_eq!(declared::TOTALS_CELLS, 2);
    assert_eq!([declared::MOST_DATASETS, declared::MOST_PORTS], [16, yardstick::PLACES]);
    assert_eq!(declared::MOST_ENTRIES, yardstick::List::MOST);
    assert_eq!(
        [declared::RECORD, declared::LINE_ROOM],
        [yardstick::LOG_RECORD, yardstick::LINE_ROOM]
    );
}
