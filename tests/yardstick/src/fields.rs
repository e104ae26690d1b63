use std::ops::RangeInclusive;

use crate::decoded::Decoded;
use crate::form::Form;
use crate::header;
use crate::lists;
use crate::refusal::Refusal;
use crate::values::Values;

/// The fields of one message, taken from left to right after the header. Taking a field keeps its value; a field with
/// a list is judged as it is taken. The size has to be judged before the fields that it makes room for are taken.
pub(crate) struct Fields<'a> {
    message: &'a [u8],
    place: usize,
    values: Values,
}

impl<'a> Fields<'a> {
    pub(crate) fn after_header(message: &'a [u8]) -> Self {
        Fields {
            message,
            place: header::SIZE,
            values: Values::default(),
        }
    }

    /// The whole size of the message.
    pub(crate) fn size(&self) -> usize {
        self.message.len()
    }

    /// Judges whether the selectors fit, the last of which is at `place`. The size that holds them is one more.
    pub(crate) fn selectors_up_to(&self, place: usize) -> Result<(), Refusal> {
        self.size_in(place + 1..=usize::MAX)
    }

    /// Judges the whole size: only `size` will do.
    pub(crate) fn size_is(&self, size: usize) -> Result<(), Refusal> {
        self.size_in(size..=size)
    }

    /// Judges the whole size: it has to be one of `sizes`. A refusal tells the smallest of them.
    pub(crate) fn size_in(&self, sizes: RangeInclusive<usize>) -> Result<(), Refusal> {
        if sizes.contains(&self.size()) {
            Ok(())
        } else {
            Err(Refusal::size(*sizes.start()))
        }
    }

    /// Judges the byte at a place by its list, and leaves it to be taken in its turn.
    pub(crate) fn listed_at(&self, place: usize, listed: impl Fn(u8) -> bool) -> Result<u8, Refusal> {
        let byte = self.message[place];
        if listed(byte) {
            Ok(byte)
        } else {
            Err(Refusal::field(place))
        }
    }

    /// Takes a byte that has a list.
    pub(crate) fn byte_of(&mut self, listed: impl Fn(u8) -> bool) -> Result<u8, Refusal> {
        self.listed_at(self.place, listed)?;
        Ok(self.byte())
    }

    /// Takes a byte that may be any.
    pub(crate) fn byte(&mut self) -> u8 {
        let [byte] = self.take();
        self.values.push(byte);
        byte
    }

    /// Takes a port, which may be any.
    pub(crate) fn port(&mut self) {
        self.byte();
    }

    /// Takes a mode.
    pub(crate) fn mode(&mut self) -> Result<u8, Refusal> {
        self.byte_of(lists::is_mode)
    }

    /// Takes two bytes, little-endian.
    pub(crate) fn two_bytes(&mut self) {
        let bytes = self.take();
        self.values.push(u16::from_le_bytes(bytes));
    }

    /// Takes four bytes, little-endian.
    pub(crate) fn four_bytes(&mut self) {
        let bytes = self.take();
        self.values.push(u32::from_le_bytes(bytes));
    }

    /// Takes a signed byte, and keeps it in two's complement of 64 bits.
    pub(crate) fn signed_byte(&mut self) {
        let bytes = self.take();
        self.values.push(i64::from(i8::from_le_bytes(bytes)) as u64);
    }

    /// Takes a signed number of four bytes, little-endian, and keeps it in two's complement of 64 bits.
    pub(crate) fn signed_four_bytes(&mut self) {
        let bytes = self.take();
        self.values.push(i64::from(i32::from_le_bytes(bytes)) as u64);
    }

    /// Takes a signed byte that has a list.
    pub(crate) fn signed_byte_in(&mut self, list: RangeInclusive<i64>) -> Result<(), Refusal> {
        let place = self.place;
        self.signed_byte();
        self.expect_in(place, list)
    }

    /// Takes a signed number of four bytes that has a list.
    pub(crate) fn signed_four_bytes_in(&mut self, list: RangeInclusive<i64>) -> Result<(), Refusal> {
        let place = self.place;
        self.signed_four_bytes();
        self.expect_in(place, list)
    }

    /// Judges the signed number that was taken last, from this place on.
    fn expect_in(&self, place: usize, list: RangeInclusive<i64>) -> Result<(), Refusal> {
        match self.values.as_slice() {
            [.., number] if list.contains(&(*number as i64)) => Ok(()),
            _ => Err(Refusal::field(place)),
        }
    }

    /// Takes six bytes, the most significant first.
    pub(crate) fn six_bytes(&mut self) {
        let [a, b, c, d, e, f] = self.take();
        self.values.push(u64::from_be_bytes([0, 0, a, b, c, d, e, f]));
    }

    /// Takes a float, which has to be finite, and keeps its bits.
    pub(crate) fn finite(&mut self) -> Result<(), Refusal> {
        let place = self.place;
        let float = f32::from_le_bytes(self.take());
        self.values.push(float.to_bits());
        if float.is_finite() {
            Ok(())
        } else {
            Err(Refusal::field(place))
        }
    }

    /// Takes a string that has to be `text`, and keeps no value. The refused place is the first byte that differs.
    pub(crate) fn fixed_string<const N: usize>(&mut self, text: &[u8; N]) -> Result<(), Refusal> {
        let place = self.place;
        let bytes: [u8; N] = self.take();
        match (0..N).find(|&i| bytes[i] != text[i]) {
            Some(i) => Err(Refusal::field(place + i)),
            None => Ok(()),
        }
    }

    /// The bytes that weren't taken yet.
    pub(crate) fn rest(&self) -> &'a [u8] {
        &self.message[self.place..]
    }

    /// Keeps a value that isn't a field of the message but follows from it.
    pub(crate) fn derived(&mut self, value: impl Into<u64>) {
        self.values.push(value);
    }

    /// Accepts the message, all of whose fields have been taken.
    pub(crate) fn accept(self, form: Form) -> Result<Decoded, Refusal> {
        debug_assert_eq!(self.place, self.size(), "a field of {form:?} wasn't taken");
        Ok(Decoded {
            form,
            open: 0..0,
            values: self.values,
        })
    }

    /// Accepts the message, whose remaining bytes are its open ones.
    pub(crate) fn accept_open(self, form: Form) -> Result<Decoded, Refusal> {
        Ok(Decoded {
            form,
            open: self.place..self.size(),
            values: self.values,
        })
    }

    fn take<const N: usize>(&mut self) -> [u8; N] {
        let bytes = self.message[self.place..]
            .first_chunk()
            .expect("the size is judged before");
        self.place += N;
        *bytes
    }
}
