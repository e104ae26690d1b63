//! The size that refusal 6 tells: as the rules' table of messages has it by hand, and as the rule itself says, by trying
//! every size.

use std::collections::BTreeMap;

use yardstick::examples::{
    has_right_size, selected_form, smallest_size, wanted_size, FORMS, READ_ONLY, SELECTOR_SIZES,
};
use yardstick::{decode, encode, Form, Message, Refusal, Way};

/// The shortest message there is, and the longest.
const SHORTEST: usize = 3;
const LONGEST: usize = 127;

/// The number of a wrong size.
const WRONG_SIZE: u8 = 6;

/// The most open bytes that are tried: more than a message has room for.
const MOST_OPEN: usize = 128;

/// In no list of a selector.
const UNLISTED: u8 = 0xFF;

/// A message cut or filled up to a size, which its first byte then says.
fn resized(message: &[u8], size: usize, filling: u8) -> Vec<u8> {
    let mut resized = message.to_vec();
    resized.resize(size, filling);
    resized[0] = size as u8;
    resized
}

/// The size that was wanted, if reading refuses a message for its size.
fn wanted_by(way: Way, message: &[u8]) -> Option<usize> {
    wanted(decode(way, message).err())
}

fn wrong_size(wanted: usize) -> Refusal {
    Refusal {
        number: WRONG_SIZE,
        place: wanted,
    }
}

fn wanted(refusal: Option<Refusal>) -> Option<usize> {
    refusal.filter(|it| it.number == WRONG_SIZE).map(|it| it.place)
}

/// How often a size was wrong, by the form's number; at 0 where the selectors didn't fit.
#[derive(Default)]
struct WrongSizes(BTreeMap<u8, u64>);

impl WrongSizes {
    fn count(&mut self, form: Option<Form>) {
        *self.0.entry(form.map_or(0, Form::number)).or_default() += 1;
    }

    fn seen(&self, number: u8) -> u64 {
        self.0.get(&number).copied().unwrap_or(0)
    }

    fn expect_forms(&self, name: &str, forms: impl IntoIterator<Item = Form>, least: u64) {
        println!("{name}: wrong sizes by form {:?}", self.0);
        for form in forms {
            let seen = self.seen(form.number());
            assert!(seen >= least, "{form:?} had a wrong size {seen} times, not {least}");
        }
    }
}

/// Every form in every size: 6 comes exactly where the table has no such size, and tells the one that is wanted.
#[test]
fn every_size_by_hand() {
    let mut wrong = WrongSizes::default();
    for example in FORMS {
        for filling in [0x00, 0x01, UNLISTED] {
            for size in SHORTEST..=LONGEST {
                let message = resized(&example.bytes(), size, filling);
                let is_right = has_right_size(example.way, &message);
                let wanted = (!is_right).then(|| wanted_size(example.way, &message));
                assert_eq!(
                    wanted_by(example.way, &message),
                    wanted,
                    "{message:02X?} {:?}",
                    example.way
                );
                if !is_right {
                    wrong.count(selected_form(example.way, &message));
                }
            }
        }
    }
    // A value has every size from 5 on. There are two examples of it.
    wrong.expect_forms("every size by hand", Form::ALL, 2 * 3 * 2);
    assert!(wrong.seen(0) >= 100);
}

/// The rule itself: the size that is wanted is the smallest one to which the message can be cut or filled up without
/// being of a wrong size, the selectors that are there left as they are. Selectors that aren't there become such as no
/// list has, so that they are refused as soon as they fit.
#[test]
fn every_size_by_trying_all() {
    let mut wrong = 0;
    for example in FORMS {
        for size in SHORTEST..=LONGEST {
            let message = resized(&example.bytes(), size, UNLISTED);
            let Some(wanted) = wanted_by(example.way, &message) else {
                continue;
            };
            let mut sizes = SHORTEST..=LONGEST;
            let smallest = sizes.find(|&size| wanted_by(example.way, &resized(&message, size, UNLISTED)).is_none());
            assert_eq!(Some(wanted), smallest, "{message:02X?} {:?}", example.way);
            wrong += 1;
        }
    }
    println!("every size by trying all: {wrong} wrong sizes");
    assert!(wrong >= 7000);
}

/// Whatever the selectors are that are there, and whatever stands before them.
#[test]
fn selectors_that_do_not_fit() {
    let mut messages = 0;
    for (message_type, holding) in SELECTOR_SIZES {
        for way in Way::BOTH {
            if decode(way, &[3, 0, message_type]) == Err(Refusal::MESSAGE_TYPE) {
                continue;
            }
            for size in SHORTEST..holding {
                for contents in 0..1_u32 << (8 * (size - SHORTEST)) {
                    let mut message = vec![size as u8, 0, message_type];
                    message.extend(&contents.to_le_bytes()[..size - SHORTEST]);
                    assert_eq!(decode(way, &message), Err(wrong_size(holding)), "{message:02X?}");
                    messages += 1;
                }
            }
        }
    }
    println!("selectors that don't fit: {messages} messages");
    // 01 and 03 both ways, 42 down, and 04 and 43 up: none or one byte of two. 02 both ways, and 61 down: none of one.
    // 44 up and 81 down: none, one or two of three.
    assert_eq!(messages, 7 * (1 + 256) + 3 + 2 * (1 + 256 + 65_536));
}

/// Every form with every number of open bytes: 6 tells the smallest size of the form. That is the length of what is
/// written with the fewest open bytes that aren't refused so. A form that is only read is told no size.
#[test]
fn every_number_of_open_bytes() {
    let mut wrong = WrongSizes::default();
    for example in FORMS {
        let answer = example.answer().expect("the examples of forms are accepted");
        let form = answer.form;
        let mut values = answer.values().to_vec();
        if form == Form::PortCombinations {
            values[2] = 1;
        }
        let message = Message::new(form, &values).expect("the values of an example");
        // Each is feedback too.
        let written = |open: usize| encode(example.way, message, &vec![0x1F; open]);
        if READ_ONLY.contains(&form) {
            let only_read = Refusal { number: 23, place: 0 };
            assert!((0..=MOST_OPEN).all(|open| written(open) == Err(only_read)), "{form:?}");
            continue;
        }
        let fewest = (0..=MOST_OPEN).find(|&open| wanted(written(open).err()).is_none());
        let smallest = fewest.and_then(|open| written(open).ok()).map(|bytes| bytes.len());
        assert_eq!(smallest, Some(smallest_size(form)), "{form:?} {values:?}");
        for open in 0..=MOST_OPEN {
            if let Some(place) = wanted(written(open).err()) {
                assert_eq!(place, smallest_size(form), "{form:?} {values:?} with {open} open bytes");
                wrong.count(Some(form));
            }
        }
    }
    // A value may have 1 to 123 open bytes, so for its two examples 0 and 124 to 128 are wrong.
    let writable = Form::ALL.into_iter().filter(|form| !READ_ONLY.contains(form));
    wrong.expect_forms("every number of open bytes", writable, 2 * 6);
    assert!(READ_ONLY.iter().all(|form| wrong.seen(form.number()) == 0));
}

/// Every count of a 43's list, and some that are wider than a byte.
#[test]
fn every_count_of_a_list() {
    let list = smallest_size(Form::PortCombinations);
    for count in (0..=300).chain([1 << 16 | 1, 1 << 32 | 8, u64::MAX]) {
        for open in [0, 1, 2] {
            let mut values = vec![0x32, 2, count];
            values.extend(1..=8);
            let message = Message::new(Form::PortCombinations, &values).expect("the values of a list");
            let length = encode(Way::Up, message, &vec![0; open]).map(|bytes| bytes.len());
            let expected = if (1..=8).contains(&count) && open == 0 {
                Ok(list + 2 * (count as usize - 1))
            } else {
                Err(wrong_size(list))
            };
            assert_eq!(length, expected, "count {count}, {open} open bytes");
        }
    }
}
