use std::fmt;

use yardstick::examples::{smallest_size, READ_ONLY as READ_ONLY_FORMS};
use yardstick::{write_row, Form, Random, Way, ROW_CELLS};

use super::call::Call;
use crate::answer::{answer, number};
use crate::product;
use crate::read_only::{expect_read_only_by_hand, READ_ONLY};
use crate::wrong_size::{wrong_size, WRONG_SIZE};

/// The answers that are counted: acceptance, the refusals of writing, and rows that are no message's own.
const NUMBERS: [usize; 7] = [0, 5, 6, 7, 8, READ_ONLY, 255];

/// How many bytes before and after the output are looked at too.
const MARGIN: usize = 8;

/// Compares the two writers, and counts what was compared.
pub struct WriteTally {
    calls: u64,
    /// For each form, how often each of the numbers came; at 0 for rows that are too short or have no form.
    seen: [[u64; NUMBERS.len()]; Form::COUNT + 1],
    /// Random bytes, of which another part stands in the output before each call.
    pattern: Vec<u8>,
}

impl Default for WriteTally {
    fn default() -> WriteTally {
        let mut random = Random::new(0);
        WriteTally {
            calls: 0,
            seen: [[0; NUMBERS.len()]; Form::COUNT + 1],
            pattern: (0..2048).map(|_| random.byte()).collect(),
        }
    }
}

/// What a call gives: its answer, and the output with a margin on both sides.
#[derive(PartialEq, Eq)]
struct Outcome {
    answer: u64,
    output: Vec<u8>,
}

impl WriteTally {
    /// Writes a message by both programs. Panics if the answers differ, or the outputs in any byte.
    pub fn compare(&mut self, call: &Call) {
        self.compare_row(call.way, &call.row(), &call.open, call.output);
    }

    /// The same with any cells as the row. Panics too if a wrong size is told another size than the smallest one that
    /// the form has by hand, or if the answer to a type that is only read isn't the one by hand, or another type is
    /// refused so. Gives the answer.
    pub fn compare_row(&mut self, way: Way, row: &[u64], open: &[u8], output: usize) -> u64 {
        let before = self.output_before(output);
        let expected = outcome(before, output, |lent| answer(write_row(way, row, open, lent)));
        let by_product = outcome(before, output, |lent| product::write(way, row, open, lent));
        if by_product != expected {
            differ(way, row, open, &expected, &by_product);
        }
        if number(expected.answer) == WRONG_SIZE {
            let form = Form::of_number(row[0]).expect("a row without a form has no size");
            assert_eq!(expected.answer, wrong_size(smallest_size(form)), "{form:?}: {row:X?}");
        }
        let form = form_of(row);
        if let Some(form) = form {
            expect_read_only_by_hand(way, form, expected.answer);
        }
        self.calls += 1;
        self.seen[form.map_or(0, Form::number) as usize][column(number(expected.answer))] += 1;
        expected.answer
    }

    /// How many calls were compared.
    pub fn calls(&self) -> u64 {
        self.calls
    }

    /// How often a number came, 0 for acceptance and 255 for a row that is no message's own.
    pub fn seen(&self, number: usize) -> u64 {
        self.seen.iter().map(|seen| seen[column(number)]).sum()
    }

    /// How often a number came for a form.
    pub fn seen_for(&self, form: Form, number: usize) -> u64 {
        self.seen[usize::from(form.number())][column(number)]
    }

    /// Panics unless every number in `numbers` came at least `least` times.
    pub fn expect_numbers(&self, numbers: impl IntoIterator<Item = usize>, least: u64) {
        for number in numbers {
            let seen = self.seen(number);
            assert!(seen >= least, "{number} came {seen} times, not {least}\n{self}");
        }
    }

    /// Panics unless every form got each number in `numbers` that it can get at least `least` times, and never one
    /// that it can't get.
    pub fn expect_forms(&self, numbers: impl IntoIterator<Item = usize>, least: u64) {
        for number in numbers {
            for form in Form::ALL {
                let seen = self.seen_for(form, number);
                if can_get(form, number) {
                    assert!(
                        seen >= least,
                        "{number} came {seen} times for {form:?}, not {least}\n{self}"
                    );
                } else {
                    assert_eq!(seen, 0, "{number} came for {form:?}\n{self}");
                }
            }
        }
    }

    /// What stands in the output and its margins before the next call.
    fn output_before(&self, length: usize) -> &[u8] {
        let start = (self.calls % 1531) as usize;
        &self.pattern[start..][..MARGIN + length + MARGIN]
    }
}

/// What a call gives with an output of this length.
fn outcome(before: &[u8], length: usize, call: impl FnOnce(&mut [u8]) -> u64) -> Outcome {
    let mut output = before.to_vec();
    let answer = call(&mut output[MARGIN..][..length]);
    Outcome { answer, output }
}

/// A row's form, none if it is too short or has no form.
fn form_of(row: &[u64]) -> Option<Form> {
    let is_row = row.len() >= ROW_CELLS;
    row.first().filter(|_| is_row).copied().and_then(Form::of_number)
}

fn column(number: usize) -> usize {
    let column = NUMBERS.iter().position(|&it| it == number);
    column.unwrap_or_else(|| panic!("writing never gives {number}"))
}

/// Whether writing a form can give a number.
fn can_get(form: Form, number: usize) -> bool {
    if READ_ONLY_FORMS.contains(&form) {
        return matches!(number, 5 | READ_ONLY);
    }
    match number {
        READ_ONLY => false,
        // 01, 02 and 03 go both ways.
        5 => form.number() >= Form::Detached.number(),
        // These have neither a selector nor a field with a list.
        7 => !matches!(
            form,
            Form::GoIntoBootMode | Form::PortValue | Form::PortValueCombined | Form::InputFormatCombined
        ),
        // These have no field without a list.
        255 => !matches!(
            form,
            Form::PropertyCommand
                | Form::PropertyText
                | Form::PropertyAddress
                | Form::HubAction
                | Form::AlertCommand
                | Form::AlertUpdate
                | Form::GoIntoBootMode
                | Form::OutputFeedback
        ),
        _ => true,
    }
}

impl fmt::Display for WriteTally {
    fn fmt(&self, f: &mut fmt::Formatter) -> fmt::Result {
        write!(f, "{} calls", self.calls)?;
        for number in NUMBERS.into_iter().filter(|&number| self.seen(number) > 0) {
            let name = match number {
                0 => "accepted".to_owned(),
                _ => format!("refused {number}"),
            };
            write!(f, "\n{name} {}, by form", self.seen(number))?;
            for (form, seen) in self.seen.iter().map(|seen| seen[column(number)]).enumerate() {
                if form > 0 || seen > 0 {
                    write!(f, " {form}:{seen}")?;
                }
            }
        }
        Ok(())
    }
}

#[cold]
fn differ(way: Way, row: &[u64], open: &[u8], expected: &Outcome, product: &Outcome) -> ! {
    let show = |outcome: &Outcome| {
        let number = number(outcome.answer);
        let rest = outcome.answer as u32;
        format!(
            "number {number}, place or length {rest}, output with margins {:02X?}",
            outcome.output
        )
    };
    panic!(
        "the programs differ on {row:X?} {way:?} with open bytes {open:02X?}\nsecond program: {}\nproduct:        {}",
        show(expected),
        show(product)
    );
}
