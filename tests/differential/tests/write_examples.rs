//! Both programs write every message as it is written out by hand, and refuse those that are refused by hand, among
//! them the types that are only read.

use differential::{read_only, refused, write, Call, WriteTally, OUTPUT, READ_ONLY};
use yardstick::examples::{FORMS, WRITING};

const FILLING: u8 = 0xA5;

#[test]
fn form_examples() {
    let mut tally = WriteTally::default();
    for example in FORMS {
        let bytes = example.bytes();
        let call = Call::writing(example.way, &bytes).expect("the examples of forms are accepted");
        let mut output = [FILLING; OUTPUT];
        let length = write(call.way, &call.row(), &call.open, &mut output);
        let name = format!("`{}` {:?}", example.message, example.way);
        tally.compare(&call);
        if let Some(answer) = read_only(call.way, call.form) {
            assert_eq!(length, answer, "{name}");
            assert_eq!(output, [FILLING; OUTPUT], "{name}");
            continue;
        }
        assert_eq!(length, bytes.len() as u64, "{name}");
        assert_eq!(output[..bytes.len()], bytes, "{name}");
        assert_eq!(output[bytes.len()..], [FILLING; OUTPUT][bytes.len()..], "{name}");
    }
    println!("examples of the forms, written: {tally}");
    tally.expect_forms([0, READ_ONLY], 1);
}

#[test]
fn writing_examples() {
    let mut tally = WriteTally::default();
    for example in WRITING {
        let call = Call {
            way: example.way,
            form: example.form,
            values: example.values.to_vec(),
            open: example.open.to_vec(),
            output: example.output,
        };
        let mut output = vec![FILLING; call.output];
        let answer = write(call.way, &call.row(), &call.open, &mut output);
        assert_eq!(answer, refused(example.refusal), "{call:?}");
        assert_eq!(output, vec![FILLING; call.output], "{call:?}");
        tally.compare(&call);
    }
    println!("examples of refused writing: {tally}");
    tally.expect_numbers([5, 6, 7, 8, READ_ONLY, 255], 4);
    tally.expect_forms([READ_ONLY], 5);
    assert_eq!(tally.seen(0), 0);
}
