//! The fields of every form: every value of every byte, the edges of all fields, and every pair of selectors.

use differential::{bad_feedback_calls, edges, valid_calls, Call, WriteTally, READ_ONLY};
use yardstick::{Form, Kind, Way};

/// Every value of a kind that has one byte.
fn every_byte(kind: Kind) -> Vec<u64> {
    match kind {
        Kind::Byte => (0..=255).collect(),
        Kind::SignedByte => (-128..=127).map(|number: i64| number as u64).collect(),
        _ => Vec::new(),
    }
}

/// The valid calls, each way.
fn calls_both_ways() -> impl Iterator<Item = Call> {
    valid_calls()
        .into_iter()
        .flat_map(|call| Way::BOTH.map(|way| Call { way, ..call.clone() }))
}

/// Every value of every byte, with each other field at each of its edges.
#[test]
fn every_value_of_every_byte() {
    let mut tally = WriteTally::default();
    for valid in calls_both_ways() {
        let kinds = valid.form.kinds();
        for index in 0..kinds.len() {
            let mut call = valid.clone();
            for value in every_byte(kinds[index]) {
                call.values[index] = value;
                tally.compare(&call);
                for other in (0..kinds.len()).filter(|&other| other != index) {
                    for edge in edges(kinds[other]) {
                        call.values[other] = edge;
                        tally.compare(&call);
                    }
                    call.values[other] = valid.values[other];
                }
            }
        }
    }
    println!("every value of every byte: {tally}");
    tally.expect_numbers([0, 5, 6, 7], 50_000);
    // Every byte of a 13, of which there are two examples.
    assert_eq!(tally.seen_for(Form::LockStatus, READ_ONLY), 2 * 256);
}

/// A valid call of a form.
fn example(valid: &[Call], form: Form) -> Call {
    let call = valid.iter().find(|call| call.form == form);
    call.expect("every form has an example").clone()
}

/// A value's edges, and its values in the valid calls. The entries of a 43 are many, so two values have to do for each;
/// so are the values of commands for motors, and one edge has to do.
fn edges_of(valid: &[Call], form: Form, index: usize) -> Vec<u64> {
    if form == Form::PortCombinations && index >= 3 {
        return vec![0, 0xFF00 + index as u64];
    }
    let calls = valid.iter().filter(|call| call.form == form);
    let mut values: Vec<u64> = calls.map(|call| call.values[index]).collect();
    let edges = edges(form.kinds()[index]);
    match form {
        Form::StartSpeedForDegrees
        | Form::GotoAbsolutePosition
        | Form::GotoAbsolutePositions
        | Form::PresetEncoders => values.extend(edges.last()),
        _ => values.extend(edges),
    }
    values.sort();
    values.dedup();
    values
}

/// Calls `each` with every way to take one number from each list.
fn every_choice(lists: &[Vec<u64>], chosen: &mut Vec<u64>, each: &mut impl FnMut(&[u64])) {
    match lists.split_first() {
        None => each(chosen),
        Some((first, rest)) => {
            for &number in first {
                chosen.push(number);
                every_choice(rest, chosen, each);
                chosen.pop();
            }
        }
    }
}

/// All fields at all their edges at once, with open bytes and without.
#[test]
fn all_edges() {
    let valid = valid_calls();
    let mut tally = WriteTally::default();
    for form in Form::ALL {
        let indices = 0..form.kinds().len();
        let lists: Vec<Vec<u64>> = indices.map(|index| edges_of(&valid, form, index)).collect();
        let mut call = example(&valid, form);
        every_choice(&lists, &mut Vec::new(), &mut |values| {
            call.values.copy_from_slice(values);
            for way in Way::BOTH {
                for open in [&b""[..], b"\x80", b"RANGE", b"\x80\x1F"] {
                    call.way = way;
                    call.open.clear();
                    call.open.extend(open);
                    tally.compare(&call);
                }
            }
        });
    }
    println!("all edges: {tally}");
    tally.expect_forms([0, 5, 6], 1);
    // Without open bytes and three times with some.
    tally.expect_forms([READ_ONLY], 4);
    tally.expect_numbers([0, 5, 6, 7], 10_000);
}

/// Every pair of selectors of a hub property and of an alert, for every form that has them, each way.
#[test]
fn every_pair_of_selectors() {
    let valid = valid_calls();
    let mut tally = WriteTally::default();
    let with_pairs = Form::ALL.into_iter().take_while(|&form| form != Form::Detached);
    for form in with_pairs.filter(|&form| form != Form::HubAction) {
        let mut call = example(&valid, form);
        for way in Way::BOTH {
            call.way = way;
            for first in 0..=255 {
                for second in 0..=255 {
                    call.values[..2].copy_from_slice(&[first, second]);
                    tally.compare(&call);
                }
            }
        }
    }
    println!("every pair of selectors: {tally}");
    assert_eq!(tally.calls(), 9 * 2 * 65_536);
    // The permitted pairs, counted by hand. Commands: 4 of property 1, 3 each of 2, 5 and 6, 2 of 12, and Request of
    // the other ten.
    for (form, pairs) in [
        (Form::PropertyCommand, 4 + 3 * 3 + 2 + 10),
        (Form::PropertyText, 1 + 3),
        (Form::PropertyByte, 2 + 6),
        (Form::PropertyRssi, 1),
        (Form::PropertyVersion, 2),
        (Form::PropertyProtocol, 1),
        (Form::PropertyAddress, 2),
        (Form::AlertCommand, 4 * 3),
        (Form::AlertUpdate, 4),
    ] {
        assert_eq!(tally.seen_for(form, 0), pairs, "{form:?}");
    }
    assert_eq!(tally.seen(0) + tally.seen(6) + tally.seen(7), tally.calls());
    tally.expect_numbers([7], 100_000);
}

/// Numbers of one bit, of all bits below it, and their complements, for every value of every form.
#[test]
fn every_width() {
    let mut tally = WriteTally::default();
    for valid in calls_both_ways() {
        for index in 0..valid.values.len() {
            let mut call = valid.clone();
            for bit in 0..64 {
                let one = 1_u64 << bit;
                for number in [one, one - 1, !one, !(one - 1)] {
                    call.values[index] = number;
                    tally.compare(&call);
                }
            }
        }
    }
    // Feedback has no values.
    for (call, answer) in bad_feedback_calls() {
        let told = tally.compare_row(call.way, &call.row(), &call.open, call.output);
        assert_eq!(told, answer, "{call:?}");
    }
    println!("every width: {tally}");
    tally.expect_forms([7, 255], 50);
    tally.expect_numbers([0, 5, 7], 1000);
    // Four numbers for each bit, in two examples.
    assert_eq!(tally.seen_for(Form::LockStatus, READ_ONLY), 2 * 64 * 4);
}

/// The floats of a mode's ranges: every sign and exponent, at both places.
#[test]
fn every_exponent() {
    const FRACTIONS: [u64; 6] = [0, 1, 0x3F_FFFF, 0x40_0000, 0x40_0001, 0x7F_FFFF];
    const OTHERS: [u64; 4] = [0, 0x4348_0000, 0x7F80_0000, 0xFFC0_0000];
    let mut tally = WriteTally::default();
    let mut call = example(&valid_calls(), Form::ModeRange);
    for sign_and_exponent in 0..512 {
        for fraction in FRACTIONS {
            let float = sign_and_exponent << 23 | fraction;
            for other in OTHERS {
                for range in [[float, other], [other, float]] {
                    call.values[3..].copy_from_slice(&range);
                    tally.compare(&call);
                }
            }
        }
    }
    println!("every exponent: {tally}");
    // Half of the others are finite, and 510 of 512 exponents.
    let all = tally.calls();
    assert_eq!(all, 512 * 6 * 4 * 2);
    assert_eq!(tally.seen(0), all / 2 * 510 / 512);
    assert_eq!(tally.seen(7), all - tally.seen(0));
}
