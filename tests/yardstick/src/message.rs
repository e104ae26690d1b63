use crate::form::Form;

/// A message to be written: a form and its values, left to right, selectors included. The values may be any numbers;
/// writing judges them.
#[derive(Clone, Copy, Debug)]
pub struct Message<'a> {
    form: Form,
    values: &'a [u64],
}

impl<'a> Message<'a> {
    /// The message of a form and its values, unless their number is another.
    pub fn new(form: Form, values: &'a [u64]) -> Option<Message<'a>> {
        (values.len() == form.kinds().len()).then_some(Message { form, values })
    }

    pub(crate) fn form(&self) -> Form {
        self.form
    }

    pub(crate) fn values(&self) -> &'a [u64] {
        self.values
    }
}
