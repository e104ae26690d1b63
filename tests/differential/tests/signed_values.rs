//! Whole numbers are handed out with their sign: every number of 8 and 16 bits and many of 32, as the second program
//! hands them out, and as Rust's own integers read their bytes. The seeds are fixed.

use std::slice;

use differential::signed::{
    datasets, messages, number, orders_of_signs, value, with_signs, Signs, EXPERIMENT, KINDS, MODE, PORT,
};
use differential::{Random, TableTally, Trio};
use yardstick::Way;

/// A port that sends values of a format.
fn with_format(tally: &mut TableTally, datasets: usize, kind: u64) -> Trio {
    let mut trio = Trio::default();
    for (way, message) in messages(datasets, kind) {
        trio.offer(tally, way, &message, EXPERIMENT);
    }
    trio
}

/// Hands out all datasets of a value.
fn hand_out(trio: &mut Trio, tally: &mut TableTally, signs: &mut Signs, datasets: &[Vec<u8>]) {
    let message = value(datasets);
    for (index, dataset) in datasets.iter().enumerate() {
        let name = format!("dataset {index} of {message:02X?}");
        let handed_out = trio.hand_out(tally, Way::Up, &message, index);
        let [kind, cell, port, mode, state, experiment] = handed_out.expect(&name);
        assert_eq!(
            [kind, port, mode, state, experiment],
            [0, PORT, MODE, 2, EXPERIMENT.into()],
            "{name}"
        );
        // In C it is cast to int64_t.
        assert_eq!(cell as i64, number(dataset), "{name}");
        signs.count(number(dataset));
    }
}

#[test]
fn one_by_one() {
    let mut tally = TableTally::default();
    for ((kind, width), least) in KINDS.into_iter().zip([128, 32_768, 25_000]) {
        let mut trio = with_format(&mut tally, 1, kind);
        let mut signs = Signs::default();
        for (turn, dataset) in datasets(width).into_iter().enumerate() {
            if turn % 8 == 0 {
                trio.hand_out_all(&mut tally, Way::Up, &value(slice::from_ref(&dataset)));
            }
            hand_out(&mut trio, &mut tally, &mut signs, &[dataset]);
        }
        signs.expect(&format!("handed out, {} bits", 8 * width), least);
    }
}

/// Datasets of mixed sign in one value: none takes its sign from another.
#[test]
fn mixed_signs() {
    let mut tally = TableTally::default();
    let mut random = Random::new(82);
    for (kind, width) in KINDS {
        let mut signs = Signs::default();
        for order in orders_of_signs(&mut random) {
            let mut trio = with_format(&mut tally, order.len(), kind);
            let datasets = with_signs(&mut random, width, &order);
            trio.hand_out_all(&mut tally, Way::Up, &value(&datasets));
            hand_out(&mut trio, &mut tally, &mut signs, &datasets);
        }
        signs.expect(&format!("handed out, mixed, {} bits", 8 * width), 2000);
    }
}
