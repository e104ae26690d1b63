//! Lists of messages: after every one the product, the second program's table and the reader without a table agree.
//! The seeds are fixed, so every run compares the same lists.

use differential::{plausible, Random, TableTally, Trio};
use yardstick::examples::bytes;
use yardstick::traffic::{experiment, Scene, Traffic};
use yardstick::{Answered, Table, Way};

/// The scene and the seed of each of `count` lists.
fn lists(first_seed: u64, count: u64) -> impl Iterator<Item = (u64, Scene)> {
    (first_seed..first_seed + count).map(|seed| (seed, Scene::ALL[seed as usize % Scene::ALL.len()]))
}

/// Hands out all datasets of a message, and some of them: the first, one of any number, the last one and the one after
/// it.
fn hand_out_some(trio: &mut Trio, tally: &mut TableTally, random: &mut Random, way: Way, message: &[u8]) {
    let datasets = datasets_of(trio.table(), message).max(1);
    for number in [0, random.below(18), datasets - 1, datasets] {
        trio.hand_out(tally, way, message, number);
    }
    trio.hand_out_all(tally, way, message);
}

/// How many datasets a value has: those of its port's format, or one for each pointer.
fn datasets_of(table: &Table, message: &[u8]) -> usize {
    let [_, _, message_type, port, rest @ ..] = message else {
        return 0;
    };
    match (table.port(*port).and_then(|it| it.answered), message_type, rest) {
        (Some(Answered::Single(setup)), _, _) => {
            let format = table.format(*port, setup.mode);
            format.map_or(0, |format| usize::from(format.datasets))
        }
        (Some(Answered::Combined { .. }), 0x46, [low, high, ..]) => {
            u16::from_le_bytes([*low, *high]).count_ones() as usize
        }
        _ => 0,
    }
}

/// Short lists, with all ports compared after every message.
#[test]
fn short_lists() {
    let mut tally = TableTally::default();
    for (seed, scene) in lists(1, 60) {
        let mut random = Random::new(!seed);
        let mut traffic = Traffic::new(seed, scene);
        let mut trio = Trio::default();
        for _ in 0..80 {
            let (way, message, experiment) = traffic.next(trio.table());
            hand_out_some(&mut trio, &mut tally, &mut random, way, &message);
            trio.offer(&mut tally, way, &message, experiment);
            trio.compare_all_ports(&mut tally);
        }
    }
    println!("short lists: {tally}");
    tally.expect_offered([0], 1000);
    tally.expect_offered((10..=16).chain(20..=22), 30);
    tally.expect_handed_out((10..=18).chain(20..=22), 30);
    tally.expect_whole((10..=18).chain(20..=22).filter(|&number| number != 13), 20);
    tally.expect_signs(100);
    tally.expect_ports(500);
    tally.expect_experiments(20);
}

/// Longer lists, with the touched ports compared after every message, and all ports now and then. Beside each message a
/// value is asked for that isn't offered.
#[test]
fn long_lists() {
    let mut tally = TableTally::default();
    for (seed, scene) in lists(101, 200) {
        let mut random = Random::new(!seed);
        let mut traffic = Traffic::new(seed, scene);
        let mut trio = Trio::default();
        for step in 0..300 {
            let (way, value) = traffic.value(trio.table());
            hand_out_some(&mut trio, &mut tally, &mut random, way, &value);
            let (way, message, experiment) = traffic.next(trio.table());
            trio.hand_out(&mut tally, way, &message, step % 3);
            let touched = trio.offer(&mut tally, way, &message, experiment);
            trio.compare_ports(&mut tally, touched);
            if step % 100 == 99 {
                trio.compare_all_ports(&mut tally);
            }
        }
    }
    println!("long lists: {tally}");
    tally.expect_offered([0], 20_000);
    tally.expect_offered(2..=7, 50);
    tally.expect_offered((10..=16).chain(20..=22), 500);
    tally.expect_offered([17], 50);
    tally.expect_handed_out([0], 20_000);
    tally.expect_handed_out(2..=7, 50);
    tally.expect_handed_out(10..=18, 1000);
    tally.expect_handed_out(20..=22, 500);
    tally.expect_whole([0, 10, 14, 15, 16, 18, 20, 21], 500);
    tally.expect_every_number_of_datasets(20);
    tally.expect_lists_of_ports(0..=16, 100);
    tally.expect_signs(5000);
    tally.expect_ports(5000);
    tally.expect_experiments(500);
    tally.expect_combined(50);
}

/// Lists in which ports are asked again and again, with other numbers each time, and are pulled and attached again. All
/// numbers of ports and values are compared after every message.
#[test]
fn experiments() {
    let mut tally = TableTally::default();
    for seed in 401..=460 {
        let mut traffic = Traffic::new(seed, Scene::Experiments);
        let mut trio = Trio::default();
        for _ in 0..300 {
            let (way, message, experiment) = traffic.next(trio.table());
            let mut touched = trio.offer(&mut tally, way, &message, experiment);
            touched.extend(trio.table().ports());
            trio.compare_ports(&mut tally, touched);
            let (way, value) = traffic.value(trio.table());
            trio.hand_out(&mut tally, way, &value, 0);
        }
    }
    println!("experiments: {tally}");
    tally.expect_offered([0], 5000);
    tally.expect_handed_out([0], 3000);
    tally.expect_experiments(300);
}

/// Messages that aren't guided by what is present. Most of them are about an absent port.
#[test]
fn unguided_lists() {
    let mut tally = TableTally::default();
    let mut message = Vec::new();
    for seed in 301..=320 {
        let mut random = Random::new(seed);
        let mut trio = Trio::default();
        for _ in 0..500 {
            let way = plausible(&mut random, &mut message);
            // Few ports.
            if let Some(port) = message.get_mut(3) {
                *port &= 0x83;
            }
            trio.hand_out(&mut tally, way, &message, 0);
            trio.hand_out_all(&mut tally, way, &message);
            let touched = trio.offer(&mut tally, way, &message, experiment(&mut random));
            trio.compare_ports(&mut tally, touched);
        }
    }
    println!("unguided lists: {tally}");
    tally.expect_offered([0, 2, 3, 4, 5, 6, 7, 10], 50);
    tally.expect_whole([2, 3, 4, 5, 6, 7, 10, 17], 50);
}

/// Messages about three ports: the third may be virtual and is driven, and the first is set up and combined. Each has an
/// experiment number of its own, and the same 41 comes with two.
const FEW: [(Way, &str, u16); 19] = [
    (Way::Up, "0F 00 04 00 01 26 00 00 00 00 10 00 00 00 10", 1),
    (Way::Up, "0F 00 04 01 01 27 00 00 00 00 10 00 00 00 10", 2),
    (Way::Up, "0F 00 04 02 01 28 00 00 00 00 10 00 00 00 10", 3),
    (Way::Up, "09 00 04 02 02 29 00 01 00", 4),
    (Way::Up, "05 00 04 00 00", 5),
    (Way::Up, "05 00 04 01 00", 6),
    (Way::Up, "05 00 04 02 00", 7),
    (Way::Up, "04 00 02 32", 8),
    (Way::Up, "0A 00 44 00 01 80 01 00 03 00", 9),
    (Way::Down, "0A 00 41 00 01 00 00 00 00 01", 0x0102),
    (Way::Down, "0A 00 41 00 01 00 00 00 00 01", 0xFFFF),
    (Way::Up, "0A 00 47 00 01 00 00 00 00 01", 10),
    (Way::Up, "0A 00 47 00 01 00 00 00 00 00", 11),
    (Way::Up, "0A 00 47 00 02 00 00 00 00 01", 12),
    (Way::Up, "05 00 45 00 07", 13),
    (Way::Down, "0E 00 81 02 11 14 00 00 00 00 FD FF FF FF", 14),
    (Way::Up, "07 00 82 02 0A 00 01", 15),
    (Way::Down, "07 00 42 00 01 00 10", 16),
    (Way::Up, "07 00 48 00 00 01 00", 17),
];

/// Offers every list of up to `length` of the messages, after those that were offered before.
fn every_list(trio: &Trio, tally: &mut TableTally, messages: &[(Way, Vec<u8>, u16)], length: usize) {
    if length == 0 {
        return;
    }
    for (way, message, experiment) in messages {
        let mut next = trio.clone();
        next.hand_out(tally, *way, message, 0);
        next.offer(tally, *way, message, *experiment);
        next.compare_ports(tally, 0..=2);
        every_list(&next, tally, messages, length - 1);
    }
}

/// Every list of up to three of a few messages, and of up to four after two ports are there and one is asked.
#[test]
fn every_short_list() {
    let mut tally = TableTally::default();
    let messages = FEW.map(|(way, message, experiment)| (way, bytes(message), experiment));
    let mut trio = Trio::default();
    every_list(&trio, &mut tally, &messages, 3);
    for start in [0, 1, 8, 9] {
        let (way, message, experiment) = &messages[start];
        trio.offer(&mut tally, *way, message, *experiment);
    }
    every_list(&trio, &mut tally, &messages, 4);
    println!("every short list: {tally}");
    tally.expect_offered([0, 10, 11, 12], 1000);
    tally.expect_offered([14, 15, 21, 22], 300);
    tally.expect_ports(1000);
}
