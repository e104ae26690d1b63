//! Combined ports in lists of messages and in damaged tables: the product, the second program's table and the reader
//! without a table agree, and a table is sound or not as it is by hand. The seeds are fixed.

use differential::{LentTable, Random, TableTally, Trio, NOT_SOUND};
use yardstick::examples::{bytes, COMBINED_SOUND};
use yardstick::traffic::{Scene, Traffic};
use yardstick::{Answered, Asked, Table, TableCells, Way, RECORD_CELLS, TABLE_CELLS};

/// Lists about ports that are combined, set up anew and pulled, with everything compared after every message: the ports,
/// and all datasets of the message and of a value.
#[test]
fn lists_of_messages() {
    let mut tally = TableTally::default();
    for seed in 0..120 {
        let mut random = Random::new(!seed);
        let mut traffic = Traffic::new(8000 + seed, Scene::Combined);
        let mut trio = Trio::default();
        for _ in 0..200 {
            let (way, message, experiment) = traffic.next(trio.table());
            trio.hand_out_all(&mut tally, way, &message);
            let mut touched = trio.offer(&mut tally, way, &message, experiment);
            touched.extend(trio.table().ports());
            trio.compare_ports(&mut tally, touched);
            let (way, value) = traffic.value(trio.table());
            for number in [0, 1, random.below(18)] {
                trio.hand_out(&mut tally, way, &value, number);
            }
            trio.hand_out_all(&mut tally, way, &value);
        }
    }
    println!("lists of messages: {tally}");
    tally.expect_combined(150);
    tally.expect_offered([0], 8000);
    tally.expect_offered([10, 14, 15, 16, 17, 20, 21], 150);
    tally.expect_handed_out([0, 10, 14, 15, 16, 17, 18, 20, 21], 150);
    tally.expect_whole([0, 10, 14, 15, 16, 17, 18, 20, 21], 150);
    tally.expect_experiments(50);
}

/// Combined ports among all else.
#[test]
fn mixed_lists() {
    let mut tally = TableTally::default();
    for seed in 0..150 {
        let scene = [Scene::Mixed, Scene::Experiments, Scene::Combined][seed as usize % 3];
        let mut traffic = Traffic::new(9000 + seed, scene);
        let mut trio = Trio::default();
        for step in 0..300 {
            let (way, message, experiment) = traffic.next(trio.table());
            trio.hand_out(&mut tally, way, &message, step % 3);
            let touched = trio.offer(&mut tally, way, &message, experiment);
            trio.compare_ports(&mut tally, touched);
            if step % 100 == 99 {
                trio.compare_all_ports(&mut tally);
            }
        }
    }
    println!("mixed lists: {tally}");
    tally.expect_combined(100);
    tally.expect_offered((10..=12).chain(14..=17).chain(20..=22), 200);
    tally.expect_ports(500);
}

/// Messages about port 0 alone: formats, lists, modes, answers of both sorts, values, and what ends it.
const FEW: [(Way, &str, u16); 13] = [
    (Way::Up, "0F 00 04 00 01 26 00 00 00 00 10 00 00 00 10", 1),
    (Way::Up, "05 00 04 00 00", 2),
    (Way::Down, "08 00 42 00 01 00 10 21", 3),
    (Way::Down, "07 00 42 00 01 00 21", 4),
    (Way::Down, "05 00 42 00 06", 5),
    (Way::Down, "0A 00 41 00 01 00 00 00 00 01", 6),
    (Way::Up, "0A 00 47 00 01 00 00 00 00 01", 7),
    (Way::Up, "07 00 48 00 00 03 00", 8),
    (Way::Up, "07 00 48 00 00 01 00", 9),
    (Way::Up, "09 00 46 00 03 00 80 FE FF", 10),
    (Way::Up, "07 00 46 00 01 00 80", 11),
    (Way::Up, "05 00 45 00 07", 12),
    (Way::Up, "0A 00 44 00 01 80 01 01 03 00", 13),
];

/// Offers every list of up to `length` of the messages, after those that were offered before.
fn every_list(trio: &Trio, tally: &mut TableTally, messages: &[(Way, Vec<u8>, u16)], length: usize) {
    if length == 0 {
        return;
    }
    for (way, message, experiment) in messages {
        let mut next = trio.clone();
        next.hand_out(tally, *way, message, 0);
        next.offer(tally, *way, message, *experiment);
        next.compare_ports(tally, [0]);
        every_list(&next, tally, messages, length - 1);
    }
}

/// Every list of up to four of a few messages, after a list is asked, is answered, is replaced, and after a 47.
#[test]
fn every_short_list() {
    let mut tally = TableTally::default();
    let messages = FEW.map(|(way, message, experiment)| (way, bytes(message), experiment));
    let formats = ["0A 00 44 00 01 80 01 00 03 00", "0A 00 44 00 02 80 02 01 05 00"].map(bytes);
    for (start, length) in [(&[2][..], 3), (&[2, 7], 4), (&[2, 7, 3], 3), (&[2, 7, 5, 6], 3)] {
        let mut trio = Trio::default();
        trio.offer(&mut tally, Way::Up, &messages[0].1, 1);
        for format in &formats {
            trio.offer(&mut tally, Way::Up, format, 1);
        }
        for index in start {
            let (way, message, experiment) = &messages[*index];
            trio.offer(&mut tally, *way, message, *experiment);
        }
        every_list(&trio, &mut tally, &messages, length);
    }
    println!("every short list: {tally}");
    tally.expect_offered([0, 10, 11, 14, 20, 21], 1000);
    tally.expect_offered([16], 100);
    tally.expect_offered([15], 1);
    tally.expect_handed_out([0], 1000);
}

/// The cells of a record: state, asking, experiment number, answer, list and the list that was taken over.
const STATE: usize = 5;
const ASKED: usize = 6;
const EXPERIMENT: usize = 9;
const ANSWERED: usize = 10;
const LIST: usize = 29;
const TAKEN: usize = 46;

/// The entries of a list by its cells: 1 to 16 different bytes and zeros after them. None if it is no such list, the
/// empty one if its cells are zeros.
fn list_by_hand(cells: &[u32]) -> Option<Vec<u32>> {
    let [count, entries @ ..] = cells else {
        return None;
    };
    let count = *count as usize;
    if count > 16 || entries.len() != 16 {
        return None;
    }
    let is_byte = |entry: &u32| *entry < 256;
    let is_different = |index: usize| !entries[..index].contains(&entries[index]);
    let is_right = entries[..count].iter().all(is_byte)
        && (0..count).all(is_different)
        && entries[count..].iter().all(|&cell| cell == 0);
    is_right.then(|| entries[..count].to_vec())
}

/// Whether the cells of a record, from the state on, are sound, sentence by sentence.
fn is_sound_by_hand(record: &[u32]) -> bool {
    let [state, number] = [record[STATE], record[EXPERIMENT]];
    let asking = &record[ASKED..ASKED + 3];
    let answer = &record[ANSWERED..ANSWERED + 3];
    // A list has 1 to 16 different bytes, cells past it are 0.
    let (Some(list), Some(taken)) = (list_by_hand(&record[LIST..TAKEN]), list_by_hand(&record[TAKEN..])) else {
        return false;
    };
    let is_none = |setup: &[u32]| setup.iter().all(|&cell| cell == 0);
    let is_single = |setup: &[u32]| (1..=16).contains(&setup[0]) && setup[2] <= 1;
    // An asking by list has no delta or notify and is the kept list.
    let by_list = asking == [17, 0, 0] && !list.is_empty();
    // Pointers are not 0 and within the taken list, and a combined port has a kept list.
    let pointers = answer[1];
    let within = u64::from(pointers) < 1 << taken.len();
    let is_combined = answer[0] == 17 && answer[2] == 0 && pointers != 0 && within && !list.is_empty();
    // A port that isn't combined has no taken list.
    let asking_is_right = is_none(asking) || is_single(asking) || by_list;
    let answer_is_right = if is_combined {
        true
    } else {
        (is_none(answer) || is_single(answer)) && taken.is_empty()
    };
    if !asking_is_right || !answer_is_right || number > 65_535 {
        return false;
    }
    // Nothing asked means no list, no combined answer, number 0, state 0.
    if is_none(asking) {
        return list.is_empty() && !is_combined && number == 0 && state == 0;
    }
    // In state 2 or 3 with a 48 the kept list is the taken one.
    if is_combined && matches!(state, 2 | 3) && list != taken {
        return false;
    }
    let is_as_asked = if is_combined {
        by_list && u64::from(pointers) == (1 << taken.len()) - 1
    } else {
        !by_list && asking == answer
    };
    match state {
        1 => true,
        2 => !is_none(answer) && is_as_asked,
        3 => !is_none(answer) && !is_as_asked,
        _ => false,
    }
}

/// Askings, answers, states, numbers and lists, right and wrong, in all combinations in the record of one port: sound or
/// not as by hand.
#[test]
fn every_combination_of_cells() {
    const ASKINGS: [[u32; 3]; 8] = [
        [0, 0, 0],
        [3, 1, 1],
        [1, 0, 0],
        [17, 0, 0],
        [17, 1, 0],
        [17, 0, 1],
        [18, 0, 0],
        [0, 0, 1],
    ];
    const ANSWERS: [[u32; 3]; 13] = [
        [0, 0, 0],
        [3, 1, 1],
        [3, 2, 1],
        [17, 3, 0],
        [17, 1, 0],
        [17, 2, 0],
        [17, 7, 0],
        [17, 0, 0],
        [17, 4, 0],
        [17, 0x1_0003, 0],
        [17, 3, 1],
        [18, 3, 0],
        [0, 3, 0],
    ];
    const LISTS: [&[u32]; 7] = [
        &[],
        &[2, 0x10, 0x21],
        &[2, 0x21, 0x10],
        &[3, 0x10, 0x21, 0x00],
        &[2, 0x10, 0x10],
        &[1, 0x10, 0x21],
        &[1, 0x100],
    ];
    let [mut sound, mut unsound] = [0, 0];
    for asking in ASKINGS {
        for answer in ANSWERS {
            for state in 0..=4 {
                for number in [0, 65_535, 65_536] {
                    for list in LISTS {
                        for taken in LISTS {
                            let mut cells = [0; TABLE_CELLS];
                            cells[..2].copy_from_slice(&[1, 7]);
                            cells[STATE] = state;
                            cells[EXPERIMENT] = number;
                            cells[ASKED..ASKED + 3].copy_from_slice(&asking);
                            cells[ANSWERED..ANSWERED + 3].copy_from_slice(&answer);
                            cells[LIST..][..list.len()].copy_from_slice(list);
                            cells[TAKEN..][..taken.len()].copy_from_slice(taken);
                            let is_sound = is_sound_by_hand(&cells[..RECORD_CELLS]);
                            expect_sound(&cells, is_sound);
                            sound += u64::from(is_sound);
                            unsound += u64::from(!is_sound);
                        }
                    }
                }
            }
        }
    }
    println!("every combination of cells: {sound} sound, {unsound} unsound");
    assert_eq!(sound + unsound, 8 * 13 * 5 * 3 * 49);
    assert!(sound >= 300);
}

/// Both programs take the cells for a sound table, or not.
#[track_caller]
fn expect_sound(cells: &[u32], is_sound: bool) {
    let name = || format!("{:?}", &cells[..RECORD_CELLS]);
    assert_eq!(Table::from_cells(cells).is_ok(), is_sound, "second program, {}", name());
    let mut product = LentTable::new(cells);
    if is_sound {
        assert!(product.ports().is_ok(), "{}", name());
    } else {
        assert_eq!(product.ports(), Err(NOT_SOUND), "{}", name());
    }
}

/// A table that random messages have made, with at least so many ports that were asked for a list, and that are combined.
fn made(seed: u64, listed: usize, combined: usize) -> TableCells {
    let mut traffic = Traffic::new(seed, Scene::Combined);
    let mut table = Table::default();
    loop {
        let (way, message, experiment) = traffic.next(&table);
        // A refused message changes nothing.
        let _ = table.offer(way, &message, experiment);
        let ports: Vec<_> = table.ports().filter_map(|port| table.port(port)).collect();
        let is_listed = ports.iter().filter(|port| port.asked == Some(Asked::List));
        let is_combined = ports
            .iter()
            .filter(|port| matches!(port.answered, Some(Answered::Combined { .. })));
        if is_listed.count() >= listed && is_combined.count() >= combined {
            return table.to_cells();
        }
    }
}

/// Each cell of tables that have single, listed and combined ports, changed to 0, to the next numbers, to edges and to
/// random ones: sound or not by the second program and, in the cells from the state on, by hand.
#[test]
fn every_cell_changed() {
    let mut random = Random::new(71);
    let [mut sound, mut unsound] = [0, 0];
    let tables = [COMBINED_SOUND[0].cells(), made(1, 2, 1), made(2, 1, 2), made(3, 2, 2)];
    for base in tables {
        expect_sound(&base, true);
        for cell in 0..TABLE_CELLS {
            let old = base[cell];
            let mut contents = vec![
                0,
                1,
                2,
                3,
                16,
                17,
                18,
                255,
                256,
                65_535,
                65_536,
                u32::MAX,
                old.wrapping_add(1),
                old.wrapping_sub(1),
                old ^ 0x100,
                random.number() as u32,
                random.byte().into(),
            ];
            // What other records and other cells of this one have.
            contents.extend((0..4).map(|_| base[random.below(TABLE_CELLS)]));
            contents.sort_unstable();
            contents.dedup();
            for content in contents.into_iter().filter(|&content| content != old) {
                let mut cells = base;
                cells[cell] = content;
                let is_sound = Table::from_cells(&cells).is_ok();
                let record = &cells[cell / RECORD_CELLS * RECORD_CELLS..][..RECORD_CELLS];
                // The formats are not judged by hand.
                let cell_of_record = cell % RECORD_CELLS;
                if record[0] != 0 && cell_of_record >= STATE && !(13..LIST).contains(&cell_of_record) {
                    assert_eq!(
                        is_sound,
                        is_sound_by_hand(record),
                        "cell {cell_of_record} of {record:?}"
                    );
                }
                expect_sound(&cells, is_sound);
                sound += u64::from(is_sound);
                unsound += u64::from(!is_sound);
            }
        }
    }
    println!("every cell changed: {sound} sound, {unsound} unsound");
    assert!(sound >= 1000 && unsound >= 50_000);
}

/// Two cells of a record changed at once, so that one can make up for the other.
#[test]
fn two_cells_changed() {
    const CELLS: [usize; 14] = [5, 6, 7, 9, 10, 11, 12, 29, 30, 31, 32, 46, 47, 48];
    const CONTENTS: [u32; 10] = [0, 1, 2, 3, 7, 16, 17, 0x10, 0x21, 0x32];
    let mut random = Random::new(72);
    let [mut sound, mut unsound] = [0, 0];
    let tables = [COMBINED_SOUND[0].cells(), made(4, 2, 1), made(5, 1, 2)];
    for _ in 0..60_000 {
        let mut cells = tables[random.below(tables.len())];
        let present: Vec<usize> = (0..16).filter(|place| cells[place * RECORD_CELLS] != 0).collect();
        let place = random.one_of(&present) * RECORD_CELLS;
        for _ in 0..random.between(2, 4) {
            let cell = random.one_of(&CELLS);
            cells[place + cell] = match random.below(3) {
                0 => cells[place + random.one_of(&CELLS)],
                1 => cells[place + cell].wrapping_add(1),
                _ => random.one_of(&CONTENTS),
            };
        }
        let is_sound = is_sound_by_hand(&cells[place..][..RECORD_CELLS]);
        expect_sound(&cells, is_sound);
        sound += u64::from(is_sound);
        unsound += u64::from(!is_sound);
    }
    println!("two cells changed: {sound} sound, {unsound} unsound");
    assert!(sound >= 2000 && unsound >= 20_000);
}

/// Every call on a table that is unsound in a list is refused with 9, and on the sound one next to it not.
#[test]
fn every_call_on_damaged_lists() {
    let value = bytes("07 00 46 01 01 00 80");
    let calls = [
        (Way::Down, bytes("07 00 42 01 01 00 10")),
        (Way::Up, bytes("07 00 48 01 00 01 00")),
        (Way::Up, value.clone()),
    ];
    let [mut sound, mut unsound] = [0, 0];
    for example in COMBINED_SOUND {
        let cells = example.cells();
        expect_sound(&cells, example.is_sound);
        let mut product = LentTable::new(&cells);
        if example.is_sound {
            assert!(product.port(1).is_ok(), "{}", example.name);
            assert_eq!(product.format(1, 1).map(|cells| cells[0]), Ok(0), "{}", example.name);
            sound += 1;
            continue;
        }
        for (way, message) in &calls {
            assert_eq!(product.clone().offer(*way, message, 1), NOT_SOUND, "{}", example.name);
        }
        assert_eq!(product.values(Way::Up, &value), Err(NOT_SOUND), "{}", example.name);
        assert_eq!(product.dataset(Way::Up, &value, 0), Err(NOT_SOUND), "{}", example.name);
        assert_eq!(product.port(1), Err(NOT_SOUND), "{}", example.name);
        assert_eq!(product.format(1, 1), Err(NOT_SOUND), "{}", example.name);
        unsound += 1;
    }
    println!("every call on damaged lists: {sound} sound tables, {unsound} unsound ones");
    assert!(sound >= 25 && unsound >= 60);
}
