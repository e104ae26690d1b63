use crate::decoded::Decoded;
use crate::fields::Fields;
use crate::form::Form;
use crate::lists;
use crate::refusal::Refusal;
use crate::way::Way;

/// Hub Properties, 01.
pub(crate) fn property(way: Way, mut fields: Fields) -> Result<Decoded, Refusal> {
    fields.selectors_up_to(4)?;
    let property = fields.byte_of(lists::is_property)?;
    let operation = fields.byte_of(|operation| lists::is_operation(way, property, operation))?;
    if !lists::carries_payload(operation) {
        fields.size_is(5)?;
        return fields.accept(Form::PropertyCommand);
    }
    match property {
        1 | 8 | 9 => text(fields, property),
        2 | 6 | 7 | 11 | 12 | 15 => byte(fields, property),
        3 | 4 => {
            fields.size_is(9)?;
            fields.signed_four_bytes();
            fields.accept(Form::PropertyVersion)
        }
        5 => {
            fields.size_is(6)?;
            fields.signed_byte();
            fields.accept(Form::PropertyRssi)
        }
        10 => {
            fields.size_is(7)?;
            fields.two_bytes();
            fields.accept(Form::PropertyProtocol)
        }
        13 | 14 => {
            fields.size_is(11)?;
            fields.six_bytes();
            fields.accept(Form::PropertyAddress)
        }
        _ => unreachable!("the property is judged above"),
    }
}

fn text(fields: Fields, property: u8) -> Result<Decoded, Refusal> {
    let lengths = lists::property_text_lengths(property);
    fields.size_in(5 + lengths.start()..=5 + lengths.end())?;
    fields.accept_open(Form::PropertyText)
}

fn byte(mut fields: Fields, property: u8) -> Result<Decoded, Refusal> {
    fields.size_is(6)?;
    fields.byte_of(|byte| lists::property_bytes(property).contains(&byte))?;
    fields.accept(Form::PropertyByte)
}
