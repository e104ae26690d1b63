//! The edges of writing: rows that are too short or have no form, cells that aren't looked at, and the way.

use differential::{
    bad_feedback_calls, castanetash_write, number, outside, read, read_only, valid_calls, valid_messages, way_byte,
    Call, Lent, WriteTally, BAD_ROW, OUTPUT, READ_ONLY, ROW_CELLS,
};
use yardstick::{encode, Form, Kind, Message, Way};

/// Writes a row as it is. Gives the answer and the output. A refusal has to leave the output alone, and no call may
/// change the row or the open bytes.
fn written(way: u8, row: &[u64], open: &[u8]) -> (u64, Vec<u8>) {
    let name = format!("{row:X?}, way {way}, open bytes {open:02X?}");
    let (mut row, mut open, mut output) = (Lent::holding(row), Lent::holding(open), Lent::filled(OUTPUT));
    let answer = castanetash_write(row.lend(), way, open.lend(), output.lend());
    row.expect_unchanged(&name);
    open.expect_unchanged(&name);
    if number(answer) != 0 {
        output.expect_unchanged(&name);
    }
    output.expect(&output.contents()[..OUTPUT.min(answer as u32 as usize)], &name);
    (answer, output.contents().to_vec())
}

/// What writing a valid call has to give: its message, unless that is of a type that is only read.
fn expected(call: &Call) -> (u64, Vec<u8>) {
    if let Some(answer) = read_only(call.way, call.form) {
        return nothing(answer);
    }
    let message = Message::new(call.form, &call.values).expect("a valid call");
    let bytes = encode(call.way, message, &call.open).expect("a valid call");
    holding(&bytes)
}

/// The answer and the output where a message is written.
fn holding(message: &[u8]) -> (u64, Vec<u8>) {
    let mut output = Lent::filled(OUTPUT).contents().to_vec();
    output[..message.len()].copy_from_slice(message);
    (message.len() as u64, output)
}

/// What has to be given where nothing is written.
fn nothing(answer: u64) -> (u64, Vec<u8>) {
    (answer, Lent::filled(OUTPUT).contents().to_vec())
}

/// A row that is too short is refused before anything else is looked at: the way, the form, the open bytes, the output.
#[test]
fn fewer_cells_are_no_row_and_more_are_not_looked_at() {
    let mut tally = WriteTally::default();
    for call in valid_calls() {
        let mut row = call.row().to_vec();
        row.extend([u64::MAX; 12]);
        for length in 0..=row.len() {
            let outcome = written(way_byte(call.way), &row[..length], &call.open);
            let right = if length < ROW_CELLS {
                nothing(BAD_ROW)
            } else {
                expected(&call)
            };
            assert_eq!(outcome, right, "{call:?}, {length} cells");
            for way in Way::BOTH {
                for output in [0, OUTPUT] {
                    let answer = tally.compare_row(way, &row[..length], b"xyz", output);
                    assert_eq!(answer == BAD_ROW, length < ROW_CELLS, "{call:?}, {length} cells");
                }
            }
        }
    }
    println!("rows of every length: {tally}");
    tally.expect_numbers([5, 6, 255], 500);
    // 16 to 28 cells, with two outputs.
    tally.expect_forms([READ_ONLY], 13 * 2);
}

#[test]
fn other_forms_are_no_message() {
    let numbers = (43..=600).chain([0, 1 << 16, u32::MAX.into(), u64::MAX]);
    let wide = (1..=42).flat_map(|form| [8, 16, 32, 63].map(|bit| 1 << bit | form));
    for form in numbers.chain(wide) {
        for way in [0, 1] {
            // Values of zeros, which are those of more than one form.
            let mut row = [0; ROW_CELLS];
            row[0] = form;
            for open in [&b""[..], b"x", &[b'x'; 200]] {
                assert_eq!(written(way, &row, open), nothing(BAD_ROW), "form {form}");
                assert_eq!(castanetash_write(&row, way, open, &mut []), BAD_ROW, "form {form}");
            }
        }
    }
}

/// Each value in turn outside its kind: what the answer is hangs on the field, and the way comes first. That of a 13 is
/// not looked at.
#[test]
fn values_outside_their_kind() {
    let mut tally = WriteTally::default();
    let [mut fixed, mut wide, mut only_read] = [0, 0, 0];
    for valid in valid_calls() {
        for (index, &kind) in valid.form.kinds().iter().enumerate() {
            for value in outside(kind) {
                for way in Way::BOTH {
                    for open in [&valid.open[..], b"", &[b'x'; 200]] {
                        for output in [OUTPUT, 0] {
                            let mut call = valid.clone();
                            call.values[index] = value;
                            let answer = tally.compare_row(way, &call.row(), open, output);
                            if way != valid.way || open != valid.open || is_past_count(&valid, index) {
                                continue;
                            }
                            // All else is right, so this value is what is refused. A selector is refused as such.
                            match kind {
                                _ if valid.form == Form::LockStatus => {
                                    assert_eq!(answer, (READ_ONLY as u64) << 32, "{call:?}");
                                    only_read += 1;
                                }
                                Kind::Fixed(_) => {
                                    assert_eq!(number(answer), 7, "{call:?}");
                                    fixed += 1;
                                }
                                _ => {
                                    assert!(matches!(number(answer), 6 | 7 | 255), "{call:?}");
                                    wide += 1;
                                }
                            }
                        }
                    }
                }
            }
        }
    }
    // Feedback has no values.
    for (call, expected) in bad_feedback_calls() {
        let answer = tally.compare_row(call.way, &call.row(), &call.open, call.output);
        assert_eq!(answer, expected, "{call:?}");
    }
    println!(
        "values outside their kind: {fixed} selectors that a form decides, {wide} others, {only_read} of a 13\n{tally}"
    );
    // Two examples of a 13, six numbers, two of three slices without open bytes, two outputs.
    assert!(fixed >= 100 && wide >= 1000 && only_read == 2 * 6 * 2 * 2);
    tally.expect_forms([7, 255], 4);
    tally.expect_numbers([5, 6, 7, 255], 500);
}

/// Whether a value is an entry of a 43 past its count.
fn is_past_count(call: &Call, index: usize) -> bool {
    call.form == Form::PortCombinations && index >= 3 + call.values[2] as usize
}

/// The cells of open bytes and count, and those past the values, may hold anything.
#[test]
fn other_cells_are_not_looked_at() {
    let mut calls = 0;
    for call in valid_calls() {
        let used = 4..4 + call.form.kinds().len();
        for cell in (1..ROW_CELLS).filter(|cell| !used.contains(cell)) {
            for number in [0, 1, 7, 16, 255, 1 << 32, u64::MAX] {
                let mut row = call.row();
                row[cell] = number;
                let outcome = written(way_byte(call.way), &row, &call.open);
                assert_eq!(outcome, expected(&call), "{call:?}, {number} in cell {cell}");
                calls += 1;
            }
        }
    }
    println!("{calls} calls");
    assert!(calls >= 1000);
}

#[test]
fn way_0_is_down_and_any_other_up() {
    for (form, values) in [
        (Form::GoIntoBootMode, &[][..]),
        (Form::GenericError, &[0x41, 5]),
        (Form::LockMemory, &[]),
        (Form::LockStatusRequest, &[]),
        (Form::LockStatus, &[0x55]),
        (Form::HubAction, &[0x30]),
        (Form::HubAction, &[0x2F]),
    ] {
        let mut call = Call {
            way: Way::Down,
            form,
            values: values.to_vec(),
            open: Vec::new(),
            output: OUTPUT,
        };
        let mut answers = Vec::new();
        for way in Way::BOTH {
            call.way = way;
            answers.push(written(way_byte(way), &call.row(), b""));
            if let Some(answer) = read_only(way, form) {
                assert_eq!(answers.last(), Some(&nothing(answer)), "{form:?} {way:?}");
            }
            WriteTally::default().compare(&call);
        }
        assert_ne!(answers[0], answers[1], "{form:?} each way");
        for way in 0..=255 {
            let outcome = written(way, &call.row(), b"");
            assert_eq!(outcome, answers[usize::from(way != 0)], "{form:?}, way {way}");
        }
    }
}

/// The row that reading fills is the one that writing takes, and refuses if its type is only read.
#[test]
fn rows_go_through_as_they_are() {
    let [mut through, mut only_read] = [0, 0];
    for (way, message) in valid_messages() {
        let row = read(way, &message).expect("a valid message");
        let open = &message[row[1] as usize..][..row[2] as usize];
        let form = Form::of_number(row[0]).expect("a form");
        let expected = match read_only(way, form) {
            Some(answer) => nothing(answer),
            None => holding(&message),
        };
        assert_eq!(written(way_byte(way), &row, open), expected, "{message:02X?} {way:?}");
        if number(expected.0) == READ_ONLY {
            only_read += 1;
        } else {
            through += 1;
        }
    }
    println!("{through} rows go through, {only_read} are only read");
    // 11 and 12, and 13 twice.
    assert_eq!([through, only_read], [valid_calls().len() - 4, 4]);
}
