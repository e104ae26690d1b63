//! Tables that may not be sound, and sound ones that no list of messages has made in this order. Both programs judge
//! them alike in every call, and a refused call changes nothing.

use differential::{
    dataset_cells, format_cells, offer_answer, port_cells, refused, values_cells, LentTable, Random, TableTally,
    NOT_SOUND,
};
use yardstick::examples::{COMBINED_SOUND, SOUND};
use yardstick::traffic::{compose, experiment, Scene, Traffic};
use yardstick::{Form, Table, TableCells, Way, RECORD_CELLS, TABLE_CELLS};

/// What a table is asked for and offered.
struct Calls {
    port: u8,
    mode: u8,
    number: usize,
    messages: Vec<(Way, Vec<u8>, u16)>,
}

/// The ports of a table, ascending.
fn ascending(table: &Table) -> Vec<u8> {
    let mut ports: Vec<u8> = table.ports().collect();
    ports.sort_unstable();
    ports
}

/// Makes every call of the product on a table, and compares it with the second program.
fn compare(tally: &mut TableTally, cells: &[u32], calls: &Calls) {
    let Calls { port, mode, number, .. } = *calls;
    let expected = Table::from_cells(cells);
    let expected = expected.as_ref().map_err(|&refusal| refusal);
    let mut product = LentTable::new(cells);
    let name = format!("port {port}, mode {mode} of {cells:?}");
    let answer = expected.map(|table| table.port(port));
    assert_eq!(product.port(port), port_cells(answer), "{name}");
    if let Ok(port) = answer {
        tally.count_port(port);
    }
    let answer = expected.map(|table| table.format(port, mode));
    assert_eq!(product.format(port, mode), format_cells(answer), "{name}");
    if let Ok(Some(_)) = answer {
        tally.count_format();
    }
    let answer = expected.map(ascending).map_err(refused);
    assert_eq!(product.ports(), answer, "{name}");
    tally.count_ports(answer.map_or(0, |ports| ports.len()));
    for (way, message, experiment) in &calls.messages {
        let name = || format!("{message:02X?} {way:?} in experiment {experiment} with {cells:?}");
        let answer = expected.and_then(|table| table.hand_out(*way, message, number));
        assert_eq!(
            product.dataset(*way, message, number),
            dataset_cells(answer),
            "{}",
            name()
        );
        tally.count_handed_out(answer);
        if let (Ok(table), Ok(dataset)) = (expected, answer) {
            tally.count_dataset(table, &dataset);
        }
        let answer = expected.and_then(|table| table.values(*way, message));
        tally.count_whole(answer.as_ref().map(Vec::len).map_err(|&refusal| refusal));
        assert_eq!(product.values(*way, message), values_cells(answer), "{}", name());
        let mut offered = product.clone();
        let answer = expected.and_then(|table| {
            let mut table = table.clone();
            table.offer(*way, message, *experiment)?;
            Ok(table)
        });
        let by_product = offered.offer(*way, message, *experiment);
        match answer {
            Ok(table) => {
                assert_eq!(by_product, 0, "{}", name());
                assert_eq!(offered.cells(), table.to_cells(), "{}", name());
                tally.count_offered(Ok(()));
            }
            // The lent table has looked that nothing changed.
            Err(refusal) => {
                assert_eq!(by_product, offer_answer(Err(refusal)), "{}", name());
                tally.count_offered(Err(refusal));
            }
        }
    }
}

/// A table, and messages that are guided by it.
fn table_and_messages(seed: u64, cells: &[u32]) -> (Table, Vec<(Way, Vec<u8>, u16)>) {
    let table = Table::from_cells(cells).expect("a sound table");
    let mut traffic = Traffic::over(seed, table.ports());
    let mut messages: Vec<(Way, Vec<u8>, u16)> = (0..40).map(|_| traffic.next(&table)).collect();
    let mut random = Random::new(!seed);
    let mut others: Vec<(Way, Vec<u8>)> = (0..20).map(|_| traffic.value(&table)).collect();
    others.push((Way::Up, vec![0x04, 0x00, 0x02, 0x31]));
    others.push((Way::Down, vec![0x03, 0x00, 0x12]));
    others.push((Way::Down, vec![]));
    let with_number = |(way, message)| (way, message, experiment(&mut random));
    messages.extend(others.into_iter().map(with_number));
    (table, messages)
}

/// The sound example of a name.
fn example(name: &str) -> TableCells {
    let mut examples = SOUND.iter().chain(COMBINED_SOUND);
    let example = examples.find(|example| example.name == name && example.is_sound);
    example.unwrap_or_else(|| panic!("no sound example: {name}")).cells()
}

/// A table that messages have made, 300 of them or more, with at least so many ports.
fn made(seed: u64, scene: Scene, ports: usize) -> TableCells {
    let mut traffic = Traffic::new(seed, scene);
    let mut table = Table::default();
    let mut messages = 0;
    while messages < 300 || table.ports().count() < ports {
        let (way, message, experiment) = traffic.next(&table);
        // A refused message changes nothing.
        let _ = table.offer(way, &message, experiment);
        messages += 1;
    }
    table.to_cells()
}

/// A table with a port in each state. All of them can send values, and those that were asked have a number.
fn every_state() -> TableCells {
    let mut table = Table::default();
    for port in 0..4 {
        let mut offer = |way, form, values: &[u64]| {
            let message = compose(way, form, values, &[]);
            let answer = table.offer(way, &message, 0x0100 + port as u16);
            assert_eq!(answer, Ok(()), "{message:02X?}");
        };
        offer(Way::Up, Form::Attached, &[port, 1, 0x26, 0, 0]);
        offer(Way::Up, Form::ValueFormat, &[port, 2, 0x80, 3, 0, 3, 0]);
        offer(Way::Up, Form::InputFormat, &[port, 2, 5, 1]);
        if port > 0 {
            offer(Way::Down, Form::InputFormatSetup, &[port, 2, 5, 1]);
        }
        // Answered as asked, and otherwise.
        if let 2 | 3 = port {
            offer(Way::Up, Form::InputFormat, &[port, 2, port + 3, 1]);
        }
    }
    let states = (0..4).filter_map(|port| table.port(port)).map(|it| it.state.number());
    assert!(states.eq(0..4));
    table.to_cells()
}

/// A table with ports that have lists, each of whose modes has a format: asked for a list; combined, in states 1, 2 and
/// 3; single again, asked by list and by mode.
fn with_lists() -> TableCells {
    let mut table = Table::default();
    for port in 0..6 {
        let mut offer = |way, form, values: &[u64], open: &[u8]| {
            let message = compose(way, form, values, open);
            let answer = table.offer(way, &message, 0x0200 + port as u16);
            assert_eq!(answer, Ok(()), "{message:02X?}");
        };
        offer(Way::Up, Form::Attached, &[port, 1, 0x25, 0, 0], &[]);
        for (mode, datasets, kind) in [(0, 1, 0), (1, 2, 1), (2, 3, 2), (15, 1, 3)] {
            offer(
                Way::Up,
                Form::ValueFormat,
                &[port, mode, 0x80, datasets, kind, 3, 0],
                &[],
            );
        }
        let list = [0x00, 0x11, 0x22, 0xF0];
        offer(Way::Down, Form::ModeDatasets, &[port, 1, 0], &list);
        if port > 0 {
            let pointers = if port == 3 { 0b1011 } else { 0b1111 };
            offer(Way::Up, Form::InputFormatCombined, &[port, 0, pointers], &[]);
        }
        match port {
            1 => offer(Way::Down, Form::ModeDatasets, &[port, 1, 0], &[0x22, 0x21, 0x20]),
            4 => offer(Way::Up, Form::InputFormat, &[port, 2, 5, 1], &[]),
            5 => {
                offer(Way::Down, Form::InputFormatSetup, &[port, 2, 5, 1], &[]);
                offer(Way::Up, Form::InputFormat, &[port, 2, 5, 1], &[]);
            }
            _ => {}
        }
    }
    let states = (0..6).filter_map(|port| table.port(port)).map(|it| it.state.number());
    assert!(states.eq([1, 1, 2, 3, 3, 2]));
    table.to_cells()
}

/// Sound tables: the empty one, three of the examples, some that messages have made, a full one among them, one with
/// every state, and one with lists.
fn sound_tables() -> [TableCells; 10] {
    [
        [0; TABLE_CELLS],
        example("nothing"),
        example("a virtual port with the number 0"),
        example("no list changed"),
        made(1, Scene::Crowd, 16),
        made(2, Scene::Mixed, 8),
        made(3, Scene::Pairs, 4),
        made(4, Scene::Combined, 2),
        every_state(),
        with_lists(),
    ]
}

/// Contents that a cell is changed to: edges of the lists, next to its own, and the ports of all records.
fn contents(old: u32, table: &Table) -> Vec<u32> {
    let mut contents = vec![
        0,
        1,
        2,
        3,
        4,
        15,
        16,
        17,
        255,
        256,
        65535,
        65536,
        u32::MAX,
        0x401,
        0x1_0400,
        0x0310,
        0x0311,
    ];
    contents.extend([old.wrapping_add(1), old.wrapping_sub(1), old | 0x100, old ^ 0x8000_0000]);
    contents.extend(table.ports().map(u32::from));
    contents.sort_unstable();
    contents.dedup();
    contents.retain(|&content| content != old);
    contents
}

#[test]
fn every_cell_changed() {
    let mut tally = TableTally::default();
    for (index, mut cells) in sound_tables().into_iter().enumerate() {
        let (table, messages) = table_and_messages(index as u64, &cells);
        let ports: Vec<u8> = table.ports().chain([0, 255]).collect();
        let mut turn = 0;
        for cell in 0..TABLE_CELLS {
            let (place, cell_of_record) = (cell / RECORD_CELLS, cell % RECORD_CELLS);
            let old = cells[cell];
            for content in contents(old, &table) {
                turn += 1;
                cells[cell] = content;
                let message = |turn: usize| messages[turn % messages.len()].clone();
                // The changed record and, in its formats, the changed one; or one in turn.
                let own_port = cells[place * RECORD_CELLS + 1] as u8;
                let own_mode = (13..29).contains(&cell_of_record).then(|| cell_of_record - 13);
                let calls = Calls {
                    port: if turn % 2 == 0 {
                        own_port
                    } else {
                        ports[turn / 2 % ports.len()]
                    },
                    mode: own_mode.unwrap_or(turn % 17) as u8,
                    number: turn % 3,
                    messages: vec![message(turn), message(turn / 2 + 31)],
                };
                compare(&mut tally, &cells, &calls);
            }
            cells[cell] = old;
        }
    }
    println!("every cell changed: {tally}");
    tally.expect_offered([0], 10_000);
    tally.expect_offered([9], 50_000);
    tally.expect_offered(10..=16, 100);
    tally.expect_handed_out([9], 50_000);
    tally.expect_handed_out([0, 17], 1000);
    tally.expect_whole([9], 50_000);
    tally.expect_whole([0, 17], 1000);
    tally.expect_offered([20, 21], 100);
    tally.expect_offered([17], 5);
    tally.expect_ports(200);
    tally.expect_numbers(50);
}

/// Experiment numbers in the cells of every record of the sound tables: any below 65536 where something was asked, 0
/// elsewhere.
#[test]
fn experiment_numbers() {
    /// The cell of a record that has the number, and the one that says whether something was asked.
    const NUMBER: usize = 9;
    const ASKED: usize = 6;
    let [mut sound, mut unsound] = [0, 0];
    for mut cells in sound_tables() {
        for place in 0..TABLE_CELLS / RECORD_CELLS {
            let start = place * RECORD_CELLS;
            let old = cells[start + NUMBER];
            let was_asked = cells[start + ASKED] != 0;
            for number in [
                0,
                1,
                255,
                256,
                0x0102,
                65535,
                65536,
                65537,
                0x0102_0000,
                1 << 31,
                u32::MAX,
            ] {
                cells[start + NUMBER] = number;
                let is_sound = number == 0 || was_asked && number < 65536;
                let name = format!("number {number} at place {place} of {cells:?}");
                assert_eq!(Table::from_cells(&cells).is_ok(), is_sound, "{name}");
                let mut product = LentTable::new(&cells);
                let answer = product.port(cells[start + 1] as u8);
                assert_eq!(answer.is_ok(), is_sound, "{name}");
                if is_sound && cells[start] != 0 {
                    assert_eq!(answer.map(|cells| cells[13]), Ok(number.into()), "{name}");
                }
                expect_soundness(&mut product, is_sound, &name);
                sound += u64::from(is_sound && number != 0);
                unsound += u64::from(!is_sound);
            }
            cells[start + NUMBER] = old;
        }
    }
    println!("experiment numbers: {sound} sound and not 0, {unsound} unsound");
    assert!(sound >= 100 && unsound >= 500);
}

/// Makes every call on a table that is sound or not.
fn expect_soundness(product: &mut LentTable, is_sound: bool, name: &str) {
    let nothing = [0x03, 0x00, 0x12];
    let offered = product.offer(Way::Down, &nothing, 1);
    if is_sound {
        assert_eq!(offered, 0, "{name}");
        assert_eq!(product.dataset(Way::Down, &nothing, 0), Err(17 << 32), "{name}");
        assert_eq!(product.values(Way::Down, &nothing), Err(17 << 32), "{name}");
        assert!(product.port(1).is_ok(), "{name}");
        assert!(product.format(1, 0).is_ok(), "{name}");
        assert!(product.ports().is_ok(), "{name}");
    } else {
        assert_eq!(offered, NOT_SOUND, "{name}");
        assert_eq!(product.dataset(Way::Down, &nothing, 0), Err(NOT_SOUND), "{name}");
        assert_eq!(product.values(Way::Down, &nothing), Err(NOT_SOUND), "{name}");
        assert_eq!(product.port(1), Err(NOT_SOUND), "{name}");
        assert_eq!(product.format(1, 0), Err(NOT_SOUND), "{name}");
        assert_eq!(product.ports(), Err(NOT_SOUND), "{name}");
    }
}

/// The tables that are sound or not by hand, in every call.
#[test]
fn sound_examples() {
    let mut tally = TableTally::default();
    for example in SOUND.iter().chain(COMBINED_SOUND) {
        let cells = example.cells();
        let mut product = LentTable::new(&cells);
        expect_soundness(&mut product, example.is_sound, example.name);
        let calls = |port| Calls {
            port,
            mode: 1,
            number: 0,
            messages: vec![
                (Way::Up, vec![0x05, 0x00, 0x04, port, 0x00], 2),
                (Way::Up, vec![0x09, 0x00, 0x04, 0x20, 0x02, 0x00, 0x00, port, 11], 3),
                (
                    Way::Up,
                    vec![0x0A, 0x00, 0x47, port, 0x02, 0x00, 0x00, 0x00, 0x00, 0x00],
                    4,
                ),
                (
                    Way::Down,
                    vec![0x0A, 0x00, 0x41, port, 0x02, 0x00, 0x00, 0x00, 0x00, 0x00],
                    0x0506,
                ),
                (Way::Up, vec![0x05, 0x00, 0x45, port, 0x02], 7),
                (Way::Down, vec![0x05, 0x00, 0x61, 0x00, port], 8),
                (
                    Way::Down,
                    vec![0x0E, 0x00, 0x81, port, 0x11, 0x14, 0, 0, 0, 0, 0, 0, 0, 0],
                    9,
                ),
                (
                    Way::Down,
                    vec![0x0E, 0x00, 0x81, port, 0x11, 0x0D, 0, 0, 0, 0, 1, 0, 0, 0],
                    10,
                ),
                (Way::Up, vec![0x07, 0x00, 0x82, port, 0x0A, 11, 0x0A], 11),
                (Way::Down, vec![0x07, 0x00, 0x42, port, 0x01, 0x00, 0x10], 0x0C0D),
                (Way::Up, vec![0x07, 0x00, 0x48, port, 0x00, 0x01, 0x00], 14),
                (Way::Up, vec![0x07, 0x00, 0x46, port, 0x01, 0x00, 0x02], 15),
            ],
        };
        for port in (0..20).chain([200, 254, 255]) {
            compare(&mut tally, &cells, &calls(port));
        }
    }
    println!("sound examples: {tally}");
    tally.expect_offered([0, 9, 10, 12, 14, 15, 20, 21, 22], 50);
}

/// The sound tables of above with their records in another order, and something harmed now and then.
#[test]
fn random_order_and_damage() {
    let mut tally = TableTally::default();
    let mut random = Random::new(11);
    let bases = sound_tables().map(|cells| (cells, table_and_messages(11, &cells)));
    for _ in 0..80_000 {
        let (cells, (table, messages)) = &bases[random.below(bases.len())];
        let mut cells = *cells;
        shuffle(&mut random, &mut cells);
        if random.once_in(2) {
            for _ in 0..random.between(1, 4) {
                harm(&mut random, &mut cells, table);
            }
        }
        let calls = Calls {
            port: table.ports().nth(random.below(16)).unwrap_or(3),
            // Often a mode that messages name.
            mode: match random.below(2) {
                0 => random.one_of(&[0, 1, 2, 15]),
                _ => random.below(17) as u8,
            },
            number: random.below(3),
            messages: vec![messages[random.below(messages.len())].clone()],
        };
        compare(&mut tally, &cells, &calls);
    }
    println!("random order and damage: {tally}");
    tally.expect_offered([0, 9], 10_000);
    tally.expect_offered(10..=16, 100);
    tally.expect_handed_out([0, 9, 17], 1000);
    tally.expect_whole([0, 9, 17], 1000);
    tally.expect_offered([20, 21], 100);
    tally.expect_ports(500);
    tally.expect_numbers(100);
}

/// Puts the records in another order. Each stays as it is.
fn shuffle(random: &mut Random, cells: &mut TableCells) {
    for last in (1..TABLE_CELLS / RECORD_CELLS).rev() {
        let other = random.below(last + 1);
        for cell in 0..RECORD_CELLS {
            cells.swap(last * RECORD_CELLS + cell, other * RECORD_CELLS + cell);
        }
    }
}

/// Changes a record: another number in one cell, mostly one that says what the port is or how it is set up; or the
/// whole record, which is freed or becomes a copy of another one.
fn harm(random: &mut Random, cells: &mut TableCells, table: &Table) {
    let [place, other] = [random.below(16), random.below(16)].map(|place| place * RECORD_CELLS);
    match random.below(12) {
        0 => cells[place..][..RECORD_CELLS].fill(0),
        1 => cells.copy_within(other..other + RECORD_CELLS, place),
        2 => cells[place + random.below(RECORD_CELLS)] = random.number() as u32,
        3 => {
            let cell = random.below(RECORD_CELLS);
            cells[place + cell] = cells[other + cell];
        }
        _ => {
            const CELLS: [usize; 29] = [
                0, 0, 1, 3, 3, 4, 5, 5, 6, 7, 8, 9, 9, 9, 10, 11, 12, 13, 28, 29, 29, 30, 31, 45, 46, 46, 47, 48, 62,
            ];
            let cell = place + random.one_of(&CELLS);
            let contents = contents(cells[cell], table);
            cells[cell] = random.one_of(&contents);
        }
    }
}

#[test]
fn wrong_lengths() {
    let messages: [&[u8]; 4] = [&[], &[0x80], &[0x03, 0x00, 0x12], &[0x04, 0x00, 0x02, 0x30]];
    for content in [0, 1, u32::MAX] {
        for length in [0, 1, 62, 63, 464, 945, 1007, 1009, 1071, 2016] {
            let cells = vec![content; length];
            let mut product = LentTable::new(&cells);
            let name = format!("{length} cells with {content}");
            assert_eq!(product.make_empty(), NOT_SOUND, "{name}");
            assert_eq!(product.port(0), Err(NOT_SOUND), "{name}");
            assert_eq!(product.format(0, 0), Err(NOT_SOUND), "{name}");
            assert_eq!(product.ports(), Err(NOT_SOUND), "{name}");
            for message in messages {
                for way in Way::BOTH {
                    assert_eq!(product.offer(way, message, 1), NOT_SOUND, "{name}");
                    assert_eq!(product.dataset(way, message, 0), Err(NOT_SOUND), "{name}");
                    assert_eq!(product.values(way, message), Err(NOT_SOUND), "{name}");
                }
            }
            assert_eq!(product.cells(), cells, "{name}");
        }
    }
}

/// Any 1008 cells are made an empty table.
#[test]
fn empty() {
    let mut random = Random::new(12);
    for _ in 0..100 {
        let cells: Vec<u32> = (0..TABLE_CELLS).map(|_| random.number() as u32).collect();
        let mut product = LentTable::new(&cells);
        assert_eq!(product.make_empty(), 0);
        assert_eq!(product.cells(), Table::default().to_cells());
    }
}
