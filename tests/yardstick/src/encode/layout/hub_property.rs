use super::other_values;
use crate::encode::bytes::Bytes;
use crate::form::Form;
use crate::lists;
use crate::refusal::Refusal;

/// Hub Properties, 01.
pub(super) fn property(bytes: &mut Bytes, form: Form, values: &[u64]) -> Result<(), Refusal> {
    let &[property, operation, ref payload @ ..] = values else {
        other_values(values)
    };
    bytes.byte(property);
    bytes.byte(operation);
    match (form, payload) {
        (Form::PropertyCommand | Form::PropertyText, []) => {}
        // Those of properties 11 and 12 may be any.
        (Form::PropertyByte, &[byte]) if matches!(property, 11 | 12) => bytes.byte(byte),
        (Form::PropertyByte, &[byte]) => {
            let listed = lists::property_bytes(property as u8);
            bytes.byte_of(byte, |byte| listed.contains(&byte))?;
        }
        (Form::PropertyRssi, &[rssi]) => bytes.signed_byte(rssi),
        (Form::PropertyVersion, &[version]) => bytes.signed_four_bytes(version),
        (Form::PropertyProtocol, &[version]) => bytes.two_bytes(version),
        (Form::PropertyAddress, &[address]) => bytes.six_bytes(address)?,
        _ => other_values(values),
    }
    Ok(())
}
