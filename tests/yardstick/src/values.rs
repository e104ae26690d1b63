/// The most values that a message has: a list of mode combinations has its port, type, count and eight entries.
const MOST: usize = 11;

/// The values of a message's fields, left to right.
#[derive(Clone, Debug, Default, PartialEq, Eq)]
pub(crate) struct Values {
    values: [u64; MOST],
    count: usize,
}

impl Values {
    pub(crate) fn push(&mut self, value: impl Into<u64>) {
        self.values[self.count] = value.into();
        self.count += 1;
    }

    pub(crate) fn as_slice(&self) -> &[u64] {
        &self.values[..self.count]
    }
}
