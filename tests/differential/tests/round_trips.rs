//! What one function of the product accepts, the other turns back; but the types that are only read are not written.
//! The second program plays no part in the answers.

use std::collections::BTreeMap;

use differential::{near_call, number, plausible, read, read_only, write, Call, Random, READ_ONLY, ROW_CELLS};
use yardstick::Form;

/// How many messages are tried. Those that are accepted make the trip.
const TRIED: usize = 1_700_000;

/// The least number of messages that have to make the trip, in all and of each form.
const TRIPS: u64 = 1_000_000;
const EACH: u64 = 5000;

/// The forms that are only read, by their numbers.
const ONLY_READ: [u64; 3] = [16, 17, 18];

/// An answer of the writer below this one is a length, the others are refusals.
const REFUSED: usize = 128;

/// How many messages of each form made the trip, and how many are only read, so that 23 ended theirs.
#[derive(Default)]
struct Trips {
    forms: BTreeMap<u64, u64>,
    only_read: BTreeMap<u64, u64>,
}

impl Trips {
    fn count(&mut self, form: u64) {
        *self.forms.entry(form).or_default() += 1;
    }

    fn count_only_read(&mut self, form: u64) {
        *self.only_read.entry(form).or_default() += 1;
    }

    /// Every form that is written made the trip often. The others never did, and were refused as often.
    fn expect_often(&self, name: &str) {
        let all: u64 = self.forms.values().sum();
        println!(
            "{name}: {all} of {TRIED}, by form {:?}; only read, by form {:?}",
            self.forms, self.only_read
        );
        assert!(all >= TRIPS, "{all} made the trip, not {TRIPS}");
        for form in Form::ALL {
            let form = u64::from(form.number());
            let [made, ended] = [&self.forms, &self.only_read].map(|seen| seen.get(&form).copied().unwrap_or(0));
            let (often, never) = if ONLY_READ.contains(&form) {
                (ended, made)
            } else {
                (made, ended)
            };
            assert!(often >= EACH, "form {form} came {often} times, not {EACH}");
            assert_eq!(
                never, 0,
                "form {form} made the trip {made} times, and was refused {ended} times"
            );
        }
    }
}

/// What stands in the output beforehand, other than the message at every place.
fn complement(message: &[u8]) -> Vec<u8> {
    let mut output: Vec<u8> = message.iter().map(|byte| !byte).collect();
    output.extend([0xA5, 0x5A, 0xC3]);
    output
}

/// Bytes that reading accepts are written from the row of that reading, but for the types that are only read.
#[test]
fn read_then_write() {
    let mut random = Random::new(6);
    let mut trips = Trips::default();
    let mut message = Vec::new();
    for _ in 0..TRIED {
        let way = plausible(&mut random, &mut message);
        let Ok(row) = read(way, &message) else {
            continue;
        };
        let open = &message[row[1] as usize..][..row[2] as usize];
        let mut output = complement(&message);
        let length = write(way, &row, open, &mut output);
        if ONLY_READ.contains(&row[0]) {
            trips.count_only_read(row[0]);
            assert_eq!(length, 23 << 32, "{message:02X?}");
            assert_eq!(output, complement(&message), "output of {message:02X?}");
            continue;
        }
        trips.count(row[0]);
        assert_eq!(length, message.len() as u64, "length of {message:02X?}");
        assert_eq!(output[..message.len()], message, "bytes of {message:02X?}");
        assert_eq!(output[message.len()..], [0xA5, 0x5A, 0xC3], "bytes past {message:02X?}");
    }
    trips.expect_often("read, then written");
}

/// The values as reading gives them: entries of a 43 past the count are 0.
fn settled(call: &Call) -> Vec<u64> {
    let mut values = call.values.clone();
    if call.form == Form::PortCombinations {
        let count = values[2] as usize;
        values[3..][count..].fill(0);
    }
    values
}

/// Fields that writing accepts are read from the bytes so written.
#[test]
fn write_then_read() {
    let mut random = Random::new(7);
    let mut trips = Trips::default();
    for _ in 0..TRIED {
        let call = near_call(&mut random);
        let form = call.form.number().into();
        let mut output = vec![0xA5; call.output];
        let answer = write(call.way, &call.row(), &call.open, &mut output);
        if let Some(refusal) = read_only(call.way, call.form) {
            assert_eq!(answer, refusal, "{call:?}");
            if number(refusal) == READ_ONLY {
                trips.count_only_read(form);
            }
        }
        let length = answer as usize;
        if length >= REFUSED {
            assert_eq!(output, vec![0xA5; call.output], "output of {call:?}");
            continue;
        }
        trips.count(form);
        let message = &output[..length];
        let values = settled(&call);
        let mut row = [0; ROW_CELLS];
        row[0] = form;
        if !call.open.is_empty() {
            row[1] = (length - call.open.len()) as u64;
            row[2] = call.open.len() as u64;
        }
        row[3] = values.len() as u64;
        row[4..][..values.len()].copy_from_slice(&values);
        assert_eq!(read(call.way, message), Ok(row), "{call:?} as {message:02X?}");
        assert_eq!(
            message[length - call.open.len()..],
            call.open,
            "{call:?} as {message:02X?}"
        );
    }
    trips.expect_often("written, then read");
}
