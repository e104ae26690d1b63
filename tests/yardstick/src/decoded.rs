use std::ops::Range;

use crate::form::Form;
use crate::values::Values;

/// An accepted message.
#[derive(Clone, Debug, PartialEq, Eq)]
pub struct Decoded {
    /// Its form.
    pub form: Form,
    /// Where its open bytes are: a name, a symbol, a text, value bytes, pairs of port and feedback or the entries of a
    /// list. 0 to 0 for a form without them.
    pub open: Range<usize>,
    pub(crate) values: Values,
}

impl Decoded {
    /// All fields after the header from left to right, selectors included, fixed strings and open bytes excluded.
    /// Signed fields and floats are given as their bits.
    pub fn values(&self) -> &[u64] {
        self.values.as_slice()
    }
}
