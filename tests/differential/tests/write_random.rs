//! Random messages to be written. The seeds are fixed, so every run compares the same ones.

use differential::{any_call, near_call, Random, WriteTally, READ_ONLY};

#[test]
fn near_calls() {
    let mut random = Random::new(4);
    let mut tally = WriteTally::default();
    for _ in 0..3_000_000 {
        tally.compare(&near_call(&mut random));
    }
    println!("near calls: {tally}");
    tally.expect_numbers([0], 1_000_000);
    tally.expect_numbers([5, 6, 7, 8, 255], 30_000);
    tally.expect_forms([0, READ_ONLY], 10_000);
    tally.expect_forms([5, 6, 7, 8, 255], 200);
}

#[test]
fn any_calls() {
    let mut random = Random::new(5);
    let mut tally = WriteTally::default();
    for _ in 0..3_000_000 {
        tally.compare(&any_call(&mut random));
    }
    println!("any calls: {tally}");
    tally.expect_numbers([0, 5, 6, 7, 8], 50_000);
    tally.expect_forms([0], 50);
    tally.expect_forms([6], 10);
    tally.expect_forms([5, 7, READ_ONLY], 4000);
}
