//! The size that refusal 6 tells, by every call that judges a size: reading, writing, offering and handing out. What is
//! expected is written out by hand, so that the two programs can't be wrong alike.

use differential::{
    castanetash_read_block, number, read, read_only, refused, row_answer, valid_calls, wrong_size, Call, Lent,
    LentTable, Tally, WriteTally, OUTPUT, READ_ONLY, WRONG_SIZE,
};
use yardstick::examples::{bytes, has_right_size, smallest_size, wanted_size, FORMS, SELECTOR_SIZES};
use yardstick::{decode, log_record, Form, MessageList, Refusal, Table, Way, LINE_ROOM, TABLE_CELLS};

/// The size of a header, the longest message, and one byte more.
const HEADER: usize = 3;
const LONGEST: usize = 127;
const TOO_LONG: usize = 128;

/// The most open bytes that are tried, more than a message has room for.
const MOST_OPEN: usize = 128;

/// The number of an experiment, which plays no part here.
const EXPERIMENT: u16 = 7;

/// What messages are filled up with.
const FILLINGS: [u8; 3] = [0x00, 0x01, 0xFF];

/// The examples of all forms, each cut or filled up to a size, which its first byte then says.
fn resized(size: usize, filling: u8) -> impl Iterator<Item = (Way, Vec<u8>)> {
    FORMS.iter().map(move |example| {
        let mut message = example.bytes();
        message.resize(size, filling);
        if let Some(length) = message.first_mut() {
            *length = size as u8;
        }
        (example.way, message)
    })
}

/// Those of them that have a wrong size, and what that has to be answered.
fn wrong_sizes() -> Vec<(Way, Vec<u8>, u64)> {
    let mut wrong = Vec::new();
    for filling in FILLINGS {
        for (way, message) in (HEADER..=LONGEST).flat_map(|size| resized(size, filling)) {
            if !has_right_size(way, &message) {
                let answer = wrong_size(wanted_size(way, &message));
                wrong.push((way, message, answer));
            }
        }
    }
    assert!(wrong.len() > 20_000, "{} wrong sizes", wrong.len());
    wrong
}

/// The first byte of feedback that is outside its list, and the first entry that stood in its list before, in a message
/// of a right size.
fn bad_open_byte(message: &[u8]) -> Option<u64> {
    let is_feedback = |place| place % 2 == 0;
    let is_bad = |&place: &usize| match (message[2], message.get(4)) {
        (0x82, _) => place >= 4 && is_feedback(place) && message[place] > 31,
        (0x42, Some(1)) => place >= 6 && message[6..place].contains(&message[place]),
        _ => false,
    };
    (0..message.len())
        .find(is_bad)
        .map(|place| refused(Refusal::field(place)))
}

/// Every form in every size from 0 to 128. Where the size is right, the message is: the filling is then of open bytes
/// or of the combinations of a 43. But for feedback one of the fillings is outside its list, and two entries of a list
/// are never the same.
#[test]
fn reading_every_form_in_every_size() {
    let mut tally = Tally::default();
    let [mut wrong, mut others] = [0, 0];
    for filling in FILLINGS {
        for size in 0..=TOO_LONG {
            for (way, message) in resized(size, filling) {
                tally.compare(way, &message);
                let by_hand = match size {
                    0 => Some(refused(Refusal::NO_BYTE)),
                    1..HEADER => Some(refused(Refusal::LENGTH)),
                    TOO_LONG => Some(refused(Refusal::LENGTH_BIT)),
                    _ if has_right_size(way, &message) => bad_open_byte(&message),
                    _ => Some(wrong_size(wanted_size(way, &message))),
                };
                let name = format!("{message:02X?} {way:?}");
                for answer in [read(way, &message), row_answer(&decode(way, &message))] {
                    match by_hand {
                        Some(refusal) => assert_eq!(answer, Err(refusal), "{name}"),
                        None => assert!(answer.is_ok(), "{name}: {answer:X?}"),
                    }
                }
                if by_hand.is_some_and(|it| number(it) == WRONG_SIZE) {
                    wrong += 1;
                } else {
                    others += 1;
                }
            }
        }
    }
    println!("every form in every size: {wrong} wrong sizes, {others} others\n{tally}");
    assert_eq!(wrong + others, FORMS.len() * FILLINGS.len() * (TOO_LONG + 1));
    assert_eq!(wrong, wrong_sizes().len());
    // A value has every size from 5 on: sizes 3 and 4 of its two examples are wrong.
    tally.expect_wrong_sizes(2 * 2 * FILLINGS.len() as u64);
}

/// All messages that are too short for their selectors.
#[test]
fn reading_selectors_that_do_not_fit() {
    let mut tally = Tally::default();
    for (message_type, holding) in SELECTOR_SIZES {
        let ways: &[Way] = match message_type {
            0x01..=0x03 => &Way::BOTH,
            0x42 | 0x61 | 0x81 => &[Way::Down],
            _ => &[Way::Up],
        };
        for &way in ways {
            for size in HEADER..holding {
                for contents in 0..1_u32 << (8 * (size - HEADER)) {
                    let mut message = vec![size as u8, 0, message_type];
                    message.extend(&contents.to_le_bytes()[..size - HEADER]);
                    tally.compare(way, &message);
                    let answer = read(way, &message);
                    assert_eq!(answer, Err(wrong_size(holding)), "{message:02X?} {way:?}");
                }
            }
        }
    }
    println!("selectors that don't fit: {tally}");
    // 01 and 03 both ways, 42 down, and 04 and 43 up: none or one byte of two. 02 both ways, and 61 down: none of one.
    // 44 up and 81 down: none, one or two of three.
    assert_eq!(tally.messages(), 7 * (1 + 256) + 3 + 2 * (1 + 256 + 65_536));
    tally.expect_refusals([WRONG_SIZE], tally.messages());
}

/// What makes a table in which ports 0 and 1 are present and port 0 sends values.
const ENTRIES: [(Way, &str); 4] = [
    (Way::Up, "0F 00 04 00 01 26 00 00 00 00 10 00 00 00 10"),
    (Way::Up, "0F 00 04 01 01 26 00 00 00 00 10 00 00 00 10"),
    (Way::Up, "0A 00 44 00 02 80 01 02 04 00"),
    (Way::Up, "0A 00 47 00 02 01 00 00 00 01"),
];

/// Offering a message of a wrong size, and handing out its datasets, one and all, gives what reading gives, whether its
/// port is present or not, for any dataset and however much room there is.
#[test]
fn table_calls_pass_it_on() {
    let wrong = wrong_sizes();
    let mut calls = 0;
    for entries in [&ENTRIES[..0], &ENTRIES] {
        let (mut product, mut table, mut list) = (LentTable::empty(), Table::default(), MessageList::default());
        for (way, message) in entries {
            let message = bytes(message);
            assert_eq!(product.offer(*way, &message, EXPERIMENT), 0);
            assert_eq!(table.offer(*way, &message, EXPERIMENT), Ok(()));
            assert_eq!(list.push(*way, &message, EXPERIMENT), Ok(()));
        }
        for &(way, ref message, wanted) in &wrong {
            let name = format!("{message:02X?} {way:?} after {} messages", entries.len());
            assert_eq!(read(way, message), Err(wanted), "{name}");
            assert_eq!(product.offer(way, message, EXPERIMENT), wanted, "{name}");
            for dataset in [0, 1, usize::MAX] {
                assert_eq!(product.dataset(way, message, dataset), Err(wanted), "{name}");
            }
            assert_eq!(product.values(way, message), Err(wanted), "{name}");
            assert_eq!(product.values_in(way, message, 0), Err(wanted), "{name}");
            calls += 6;
            // So do those of the second program.
            let by_table = [
                table.offer(way, message, EXPERIMENT).err(),
                table.hand_out(way, message, 0).err(),
                table.values(way, message).err(),
                list.hand_out(way, message, 0).err(),
                list.values(way, message).err(),
            ];
            for refusal in by_table {
                assert_eq!(refusal.map(refused), Some(wanted), "{name}");
            }
        }
        assert_eq!(product.cells(), table.to_cells());
    }
    println!("{calls} table calls with {} wrong sizes", wrong.len());
    // An empty table and one with ports, six calls each.
    assert_eq!(calls, 2 * 6 * wrong.len());
}

/// The line of a message of a wrong size has its number, and nothing of what was wanted.
#[test]
fn lines_have_the_number_alone() {
    let wrong = wrong_sizes();
    let records = |(way, message, _): &(Way, Vec<u8>, u64)| log_record(0, *way, message, EXPERIMENT);
    let log: Vec<u8> = wrong.iter().flat_map(records).collect();
    let lines: String = (1..=wrong.len()).map(|line| format!("{line} {WRONG_SIZE}\n")).collect();
    let (mut table, mut totals) = (Lent::holding(&[0; TABLE_CELLS]), Lent::holding(&[0, 0]));
    // The last line has to have room for any.
    let mut text = Lent::filled(lines.len() + LINE_ROOM);
    let answer = castanetash_read_block(table.lend(), totals.lend(), &log, text.lend());
    assert_eq!(answer, lines.len() as u64);
    text.expect(lines.as_bytes(), "lines of wrong sizes");
    totals.expect(&[wrong.len() as u64; 2], "totals of wrong sizes");
    table.expect_unchanged("a table to which wrong sizes are offered");
    println!("{} lines of wrong sizes", wrong.len());
}

/// Whether a form may have so many open bytes, by hand.
fn may_have_open(call: &Call, open: usize) -> bool {
    match (call.form, &call.values[..]) {
        (Form::PropertyText, [1, _]) => (1..=14).contains(&open),
        (Form::PropertyText, _) => (1..=122).contains(&open),
        (Form::ModeText, [_, _, 0]) => (1..=11).contains(&open),
        (Form::ModeText, _) => (1..=5).contains(&open),
        (Form::PortValue, _) => (1..=123).contains(&open),
        (Form::OutputFeedback, _) => (1..=62).any(|pairs| open == 2 * pairs),
        (Form::ModeDatasets, _) => (1..=16).contains(&open),
        (Form::PortValueCombined, _) => (1..=121).contains(&open),
        _ => open == 0,
    }
}

/// So many open bytes. Each is feedback too, and no two of the first sixteen are the same.
fn open_bytes(count: usize) -> Vec<u8> {
    (0..count).map(|index| index as u8 % 32).collect()
}

/// The length of what is written of a valid call with so many open bytes, by hand.
fn length(call: &Call, open: usize) -> usize {
    match call.form {
        // With the smallest size goes one open byte.
        Form::PropertyText | Form::ModeText | Form::PortValue | Form::ModeDatasets | Form::PortValueCombined => {
            smallest_size(call.form) - 1 + open
        }
        // Or two.
        Form::OutputFeedback => smallest_size(call.form) - 2 + open,
        // And one entry.
        Form::PortCombinations => smallest_size(call.form) + 2 * (call.values[2] as usize - 1),
        form => smallest_size(form),
    }
}

/// Every form with every number of open bytes from 0 to 128: too few, too many and, for most forms, any at all. The
/// output doesn't matter to a wrong size. To a form that is only read neither matters.
#[test]
fn writing_every_form_with_every_number_of_open_bytes() {
    let mut tally = WriteTally::default();
    for call in valid_calls() {
        for open in 0..=MOST_OPEN {
            let written = match read_only(call.way, call.form) {
                Some(refusal) => Err(refusal),
                None if may_have_open(&call, open) => Ok(length(&call, open) as u64),
                None => Err(wrong_size(smallest_size(call.form))),
            };
            for output in [OUTPUT, 0] {
                let by_hand = match written {
                    Ok(_) if output == 0 => refused(Refusal::OUTPUT),
                    Ok(written) => written,
                    Err(refusal) => refusal,
                };
                let answer = tally.compare_row(call.way, &call.row(), &open_bytes(open), output);
                assert_eq!(answer, by_hand, "{call:?}, {open} open bytes, {output} bytes of output");
            }
        }
    }
    println!("every form with every number of open bytes: {tally}");
    assert_eq!(tally.calls(), (valid_calls().len() * (MOST_OPEN + 1) * 2) as u64);
    // A value may have 1 to 123 open bytes, so 0 and 124 to 128 are wrong; there are three calls, with two outputs.
    tally.expect_forms([WRONG_SIZE], 6 * 3 * 2);
    tally.expect_forms([READ_ONLY], (MOST_OPEN as u64 + 1) * 2);
}

/// Every count of a 43's list from 0 to 255, without open bytes, with one and with as many as an entry has. Whatever is
/// wrong, the size of a list with one entry is wanted.
#[test]
fn writing_every_count_of_a_list() {
    /// The size of a list with one entry, and of an entry.
    const ONE: usize = 7;
    const ENTRY: usize = 2;
    let mut tally = WriteTally::default();
    for count in 0..=255 {
        for open in [0, 1, ENTRY] {
            let mut values = vec![0x32, 2, count as u64];
            values.extend(1..=8);
            let call = Call {
                way: Way::Up,
                form: Form::PortCombinations,
                values,
                open: vec![0; open],
                output: OUTPUT,
            };
            let answer = tally.compare_row(call.way, &call.row(), &call.open, call.output);
            let by_hand = match (count, open) {
                (1..=8, 0) => (ONE + ENTRY * (count - 1)) as u64,
                _ => wrong_size(ONE),
            };
            assert_eq!(answer, by_hand, "count {count}, {open} open bytes");
        }
    }
    println!("every count of a list: {tally}");
    assert_eq!(tally.seen(0), 8);
    assert_eq!(tally.seen(WRONG_SIZE), 3 * 256 - 8);
}
