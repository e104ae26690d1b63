use std::ops::RangeInclusive;

use crate::lists;
use crate::refusal::Refusal;

/// The bytes of a message to be written, laid down from left to right. A field with a list is judged at its place, and a
/// number that is wider than such a field isn't in its list. What is wider than another field is kept in mind till the
/// end, as all lists come before.
pub(super) struct Bytes {
    bytes: Vec<u8>,
    is_too_wide: bool,
}

impl Bytes {
    /// The header. Byte 0 is filled at the end.
    pub(super) fn of_type(message_type: u8) -> Bytes {
        let mut bytes = Vec::with_capacity(127);
        bytes.extend([0, 0, message_type]);
        Bytes {
            bytes,
            is_too_wide: false,
        }
    }

    /// One byte, which may be any.
    pub(super) fn byte(&mut self, value: u64) {
        self.any(value, 1);
    }

    /// One byte that has a list.
    pub(super) fn byte_of(&mut self, value: u64, listed: impl Fn(u8) -> bool) -> Result<(), Refusal> {
        self.expect(u8::try_from(value).is_ok_and(listed))?;
        self.byte(value);
        Ok(())
    }

    /// Two bytes, the least significant first.
    pub(super) fn two_bytes(&mut self, value: u64) {
        self.any(value, 2);
    }

    /// Four bytes, the least significant first.
    pub(super) fn four_bytes(&mut self, value: u64) {
        self.any(value, 4);
    }

    /// A signed byte, whose number is in two's complement of 64 bits.
    pub(super) fn signed_byte(&mut self, value: u64) {
        self.signed(value, 1);
    }

    /// Four bytes with a sign, the least significant first.
    pub(super) fn signed_four_bytes(&mut self, value: u64) {
        self.signed(value, 4);
    }

    /// A signed byte that has a list.
    pub(super) fn signed_byte_in(&mut self, value: u64, list: RangeInclusive<i64>) -> Result<(), Refusal> {
        self.expect(list.contains(&(value as i64)))?;
        self.signed_byte(value);
        Ok(())
    }

    /// Four bytes with a sign and a list.
    pub(super) fn signed_four_bytes_in(&mut self, value: u64, list: RangeInclusive<i64>) -> Result<(), Refusal> {
        self.expect(list.contains(&(value as i64)))?;
        self.signed_four_bytes(value);
        Ok(())
    }

    /// Pairs of port and feedback, of which the feedback has a list.
    pub(super) fn pairs(&mut self, pairs: &[u8]) -> Result<(), Refusal> {
        for pair in pairs.chunks_exact(2) {
            self.byte(pair[0].into());
            self.byte_of(pair[1].into(), lists::is_feedback)?;
        }
        Ok(())
    }

    /// The entries of a list, of which none is there twice.
    pub(super) fn entries(&mut self, entries: &[u8]) -> Result<(), Refusal> {
        let first_repeat = lists::first_repeat(entries);
        self.run(&entries[..first_repeat.unwrap_or(entries.len())]);
        self.expect(first_repeat.is_none())
    }

    /// Six bytes, the most significant first.
    pub(super) fn six_bytes(&mut self, value: u64) -> Result<(), Refusal> {
        self.expect(value < 1 << 48)?;
        self.bytes.extend(&value.to_be_bytes()[2..]);
        Ok(())
    }

    /// A float by its bits. It is finite unless all bits of its exponent are set.
    pub(super) fn finite(&mut self, bits: u64) -> Result<(), Refusal> {
        self.expect(bits >= 1 << 32 || bits & 0x7F80_0000 != 0x7F80_0000)?;
        self.four_bytes(bits);
        Ok(())
    }

    /// A run of bytes as it is.
    pub(super) fn run(&mut self, bytes: &[u8]) {
        self.bytes.extend(bytes);
    }

    /// The message, with its length in byte 0, unless a number was too wide for its field.
    pub(super) fn finish(mut self) -> Result<Vec<u8>, Refusal> {
        if self.is_too_wide {
            return Err(Refusal::ROW);
        }
        self.bytes[0] = u8::try_from(self.bytes.len()).expect("the size is judged before");
        Ok(self.bytes)
    }

    /// A number in so many bytes, the least significant first.
    fn any(&mut self, value: u64, width: usize) {
        self.is_too_wide |= value >> (8 * width) != 0;
        self.bytes.extend(&value.to_le_bytes()[..width]);
    }

    /// The same with a sign: what is left of the number is that of its sign alone.
    fn signed(&mut self, value: u64, width: usize) {
        let above = value as i64 >> (8 * width - 1);
        self.is_too_wide |= above != 0 && above != -1;
        self.bytes.extend(&value.to_le_bytes()[..width]);
    }

    /// Judges the field that starts at the next place.
    fn expect(&self, right: bool) -> Result<(), Refusal> {
        if right {
            Ok(())
        } else {
            Err(Refusal::field(self.bytes.len()))
        }
    }
}
