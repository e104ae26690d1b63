//! Random messages to try the programs with.

mod damage;
mod experiment;
mod float;
mod guided;
mod plausible;
mod scene;

use crate::encode::encode;
use crate::form::Form;
use crate::message::Message;
use crate::way::Way;

pub use experiment::experiment;
pub use guided::Traffic;
pub use plausible::{known_types, plausible};
pub use scene::Scene;

/// The bytes of a message that has to be an accepted one, of a type that is written.
pub fn compose(way: Way, form: Form, values: &[u64], open: &[u8]) -> Vec<u8> {
    let message = Message::new(form, values).unwrap_or_else(|| panic!("{form:?} with {values:?} is no message"));
    encode(way, message, open).unwrap_or_else(|refusal| panic!("{form:?} with {values:?}: {refusal:?}"))
}
