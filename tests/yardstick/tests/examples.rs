//! The second program gives every answer that is written out by hand.

use yardstick::examples::{Example, BENCH, FORMS, ORDER, READ_ONLY, SIZES, WRITING};
use yardstick::{decode, encode, encode_to, write_row, Form, Message, Refusal, Way, ROW_CELLS};

fn check(examples: &[Example]) {
    for example in examples {
        let answer = decode(example.way, &example.bytes());
        assert_eq!(answer, example.answer(), "{} {:?}", example.message, example.way);
    }
}

#[test]
fn bench_examples() {
    check(BENCH);
}

#[test]
fn form_examples() {
    check(FORMS);
}

#[test]
fn order_examples() {
    check(ORDER);
}

#[test]
fn size_examples() {
    check(SIZES);
}

/// The refusal of a type that is only read, by hand.
const ONLY_READ: Refusal = Refusal { number: 23, place: 0 };

/// What was read is written, but for the types that are only read.
#[test]
fn form_examples_written() {
    let mut read_only = 0;
    for example in FORMS {
        let bytes = example.bytes();
        let answer = example.answer().expect("the examples of forms are accepted");
        let message = Message::new(answer.form, answer.values()).expect("an accepted message");
        let written = encode(example.way, message, &bytes[answer.open.clone()]);
        let expected = if READ_ONLY.contains(&answer.form) {
            read_only += 1;
            Err(ONLY_READ)
        } else {
            Ok(bytes)
        };
        assert_eq!(written, expected, "{} {:?}", example.message, example.way);
    }
    // 11 and 12, and 13 twice.
    assert_eq!(read_only, 4);
}

/// The types next to those that are only read are written: 05 before them, 10, and 21 after them.
#[test]
fn types_nearby_are_written() {
    let cases: [(Way, Form, &[u64], &[u8]); 3] = [
        (Way::Up, Form::GenericError, &[0x41, 5], b"\x05\x00\x05\x41\x05"),
        (Way::Down, Form::GoIntoBootMode, &[], b"\x0C\x00\x10LPF2-Boot"),
        (
            Way::Down,
            Form::PortInformationRequest,
            &[3, 2],
            b"\x05\x00\x21\x03\x02",
        ),
    ];
    for (way, form, values, bytes) in cases {
        let message = Message::new(form, values).expect("values of the form");
        assert_eq!(encode(way, message, b"").as_deref(), Ok(bytes), "{form:?}");
    }
}

#[test]
fn writing_examples() {
    for example in WRITING {
        let name = format!("{:?} {:?} {:?}", example.form, example.values, example.way);
        let message = Message::new(example.form, example.values).expect(&name);
        let mut output = vec![0xA5; example.output];
        let answer = encode_to(example.way, message, example.open, &mut output);
        assert_eq!(answer, Err(example.refusal), "{name}");
        assert_eq!(output, vec![0xA5; example.output], "{name}");
    }
}

/// A row of a form and its values. The other cells hold anything.
fn row(form: Form, values: &[u64]) -> [u64; ROW_CELLS] {
    let mut row = [u64::MAX; ROW_CELLS];
    row[0] = form.number().into();
    row[4..][..values.len()].copy_from_slice(values);
    row
}

#[test]
fn writing_examples_by_rows() {
    for example in WRITING {
        let name = format!("{:?} {:?} {:?}", example.form, example.values, example.way);
        let mut output = vec![0xA5; example.output];
        let row = row(example.form, example.values);
        let answer = write_row(example.way, &row, example.open, &mut output);
        assert_eq!(answer, Err(example.refusal), "{name}");
        assert_eq!(output, vec![0xA5; example.output], "{name}");
    }
}

#[test]
fn rows_of_the_forms() {
    for example in FORMS {
        let bytes = example.bytes();
        let answer = example.answer().expect("the examples of forms are accepted");
        let open = &bytes[answer.open.clone()];
        for row in [answer.row(), row(answer.form, answer.values())] {
            let mut output = [0xA5; 130];
            let length = write_row(example.way, &row, open, &mut output);
            if READ_ONLY.contains(&answer.form) {
                assert_eq!(length, Err(ONLY_READ), "{} {:?}", example.message, example.way);
                assert_eq!(output, [0xA5; 130], "{} {:?}", example.message, example.way);
                continue;
            }
            assert_eq!(length, Ok(bytes.len()), "{} {:?}", example.message, example.way);
            assert_eq!(output[..bytes.len()], bytes, "{} {:?}", example.message, example.way);
            assert!(output[bytes.len()..].iter().all(|&byte| byte == 0xA5));
        }
    }
}

#[test]
fn rows_of_no_message() {
    let mut output = [0xA5; 130];
    for (form, expected) in [
        (Form::GoIntoBootMode, Ok(12)),
        (Form::LockStatusRequest, Err(ONLY_READ)),
    ] {
        let row = row(form, &[]);
        assert_eq!(write_row(Way::Down, &row, b"", &mut output), expected, "{form:?}");
        for length in 0..ROW_CELLS {
            let answer = write_row(Way::Down, &row[..length], b"", &mut output);
            assert_eq!(answer, Err(Refusal::ROW), "{form:?}, {length} cells");
        }
        let number = u64::from(form.number());
        for wide in [0, 43, 256 + number, 1 << 32 | number, u64::MAX] {
            let mut row = row;
            row[0] = wide;
            for way in Way::BOTH {
                assert_eq!(write_row(way, &row, b"", &mut output), Err(Refusal::ROW), "form {wide}");
            }
        }
    }
}
