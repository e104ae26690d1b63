//! Both programs give every answer that is written out by hand.

use differential::{read, row_answer, Tally};
use yardstick::decode;
use yardstick::examples::{Example, BENCH, FORMS, ORDER, SIZES};

fn check(examples: &[Example]) -> Tally {
    let mut tally = Tally::default();
    for example in examples {
        let message = example.bytes();
        let answer = example.answer();
        let name = format!("`{}` {:?}", example.message, example.way);
        assert_eq!(decode(example.way, &message), answer, "second program on {name}");
        assert_eq!(read(example.way, &message), row_answer(&answer), "product on {name}");
        tally.compare(example.way, &message);
    }
    println!("{tally}");
    tally
}

#[test]
fn bench_examples() {
    check(BENCH).expect_refusals(0..=7, 1);
}

#[test]
fn form_examples() {
    check(FORMS).expect_forms(1);
}

#[test]
fn order_examples() {
    check(ORDER).expect_refusals(2..=7, 1);
}

#[test]
fn size_examples() {
    let tally = check(SIZES);
    tally.expect_wrong_sizes(1);
    tally.expect_refusals([6], tally.messages());
}
