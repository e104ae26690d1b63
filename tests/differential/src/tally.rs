use std::fmt;

use yardstick::examples::selected_form;
use yardstick::{decode, Form, Row, Way};

use crate::answer::{number, row_answer};
use crate::product;
use crate::wrong_size::{expect_size_by_hand, is_wrong_size};

/// Compares the two programs, and counts what was compared.
pub struct Tally {
    messages: u64,
    refusals: [u64; 8],
    forms: [u64; Form::COUNT + 1],
    /// Wrong sizes, by the form that the selectors lead to; at 0 those that don't hold the selectors.
    wrong_sizes: [u64; Form::COUNT + 1],
}

impl Default for Tally {
    fn default() -> Tally {
        Tally {
            messages: 0,
            refusals: [0; 8],
            forms: [0; Form::COUNT + 1],
            wrong_sizes: [0; Form::COUNT + 1],
        }
    }
}

impl Tally {
    /// Reads a message by both programs. Panics if the answers differ in any cell, in a refusal or in its place, or if
    /// they aren't as it is by hand whether the size is right and which one is wanted.
    pub fn compare(&mut self, way: Way, message: &[u8]) {
        let outcome = decode(way, message);
        let answer = row_answer(&outcome);
        let product = product::read(way, message);
        if answer != product {
            differ(way, message, &answer, &product);
        }
        let refusal = outcome.err();
        expect_size_by_hand(way, message, refusal);
        if refusal.is_some_and(is_wrong_size) {
            let form = selected_form(way, message);
            self.wrong_sizes[form.map_or(0, |form| form.number().into())] += 1;
        }
        self.messages += 1;
        match answer {
            Ok(row) => {
                self.refusals[0] += 1;
                self.forms[row[0] as usize] += 1;
            }
            Err(answer) => self.refusals[number(answer)] += 1,
        }
    }

    /// Compares a message both ways.
    pub fn compare_both_ways(&mut self, message: &[u8]) {
        for way in Way::BOTH {
            self.compare(way, message);
        }
    }

    /// How many messages were compared.
    pub fn messages(&self) -> u64 {
        self.messages
    }

    /// Panics unless every refusal in `numbers` was seen at least `least` times; 0 stands for acceptance.
    pub fn expect_refusals(&self, numbers: impl IntoIterator<Item = usize>, least: u64) {
        for number in numbers {
            let seen = self.refusals[number];
            assert!(
                seen >= least,
                "refusal {number} was seen {seen} times, not {least}\n{self}"
            );
        }
    }

    /// Panics unless every form had a wrong size at least `least` times, and so often a size didn't hold the selectors.
    pub fn expect_wrong_sizes(&self, least: u64) {
        for (number, &seen) in self.wrong_sizes.iter().enumerate() {
            assert!(
                seen >= least,
                "form {number} had a wrong size {seen} times, not {least}\n{self}"
            );
        }
    }

    /// Panics unless every form was accepted at least `least` times.
    pub fn expect_forms(&self, least: u64) {
        for (number, &seen) in self.forms.iter().enumerate().skip(1) {
            assert!(
                seen >= least,
                "form {number} was seen {seen} times, not {least}\n{self}"
            );
        }
    }
}

impl fmt::Display for Tally {
    fn fmt(&self, f: &mut fmt::Formatter) -> fmt::Result {
        write!(f, "{} messages\nrefusals", self.messages)?;
        for (number, seen) in self.refusals.iter().enumerate() {
            write!(f, " {number}:{seen}")?;
        }
        write!(f, "\nforms")?;
        for (number, seen) in self.forms.iter().enumerate().skip(1) {
            write!(f, " {number}:{seen}")?;
        }
        if self.wrong_sizes.iter().any(|&seen| seen > 0) {
            write!(f, "\nwrong sizes, by form")?;
            for (number, seen) in self.wrong_sizes.iter().enumerate() {
                write!(f, " {number}:{seen}")?;
            }
        }
        Ok(())
    }
}

/// Bytes in hex, with blanks between them.
fn hex(bytes: &[u8]) -> String {
    let bytes: Vec<String> = bytes.iter().map(|byte| format!("{byte:02X}")).collect();
    bytes.join(" ")
}

#[cold]
fn differ(way: Way, message: &[u8], answer: &Result<Row, u64>, product: &Result<Row, u64>) -> ! {
    panic!(
        "the programs differ on `{}` {way:?}\nsecond program {answer:X?}\nproduct        {product:X?}",
        hex(message)
    );
}
