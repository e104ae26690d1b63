use crate::decoded::Decoded;
use crate::fields::Fields;
use crate::form::Form;
use crate::lists;
use crate::refusal::Refusal;

/// Port Mode Information Request, 22.
pub(crate) fn request(mut fields: Fields) -> Result<Decoded, Refusal> {
    fields.size_is(6)?;
    fields.port();
    fields.mode()?;
    fields.byte_of(lists::is_mode_information_type)?;
    fields.accept(Form::ModeInformationRequest)
}

/// Port Mode Information, 44. The information type is a selector, so it is judged before the mode to its left.
pub(crate) fn information(mut fields: Fields) -> Result<Decoded, Refusal> {
    fields.selectors_up_to(5)?;
    let information_type = fields.listed_at(5, lists::is_mode_information_type)?;
    match information_type {
        0 | 4 => text_size(&fields, information_type)?,
        1..=3 => fields.size_is(14)?,
        5 => fields.size_is(8)?,
        7 => fields.size_is(7)?,
        8 => fields.size_is(12)?,
        _ => fields.size_is(10)?,
    }
    fields.port();
    fields.mode()?;
    fields.byte(); // information type
    match information_type {
        0 | 4 => fields.accept_open(Form::ModeText),
        1..=3 => {
            fields.finite()?; // lowest
            fields.finite()?; // highest
            fields.accept(Form::ModeRange)
        }
        5 => {
            fields.two_bytes();
            fields.accept(Form::ModeMapping)
        }
        7 => {
            fields.byte_of(lists::is_bias)?;
            fields.accept(Form::ModeBias)
        }
        8 => {
            fields.six_bytes();
            fields.accept(Form::ModeCapabilities)
        }
        _ => {
            fields.byte_of(lists::is_datasets)?;
            fields.byte_of(lists::is_dataset_kind)?;
            fields.byte(); // figures
            fields.byte(); // decimals
            fields.accept(Form::ValueFormat)
        }
    }
}

fn text_size(fields: &Fields, information_type: u8) -> Result<(), Refusal> {
    let lengths = lists::mode_text_lengths(information_type);
    fields.size_in(6 + lengths.start()..=6 + lengths.end())
}
