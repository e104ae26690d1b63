use super::other_values;
use crate::encode::bytes::Bytes;
use crate::form::Form;
use crate::lists;
use crate::refusal::Refusal;

/// Port Mode Information, 44.
pub(super) fn information(bytes: &mut Bytes, form: Form, values: &[u64]) -> Result<(), Refusal> {
    let &[port, mode, information_type, ref payload @ ..] = values else {
        other_values(values)
    };
    bytes.byte(port);
    bytes.byte_of(mode, lists::is_mode)?;
    bytes.byte(information_type);
    match (form, payload) {
        (Form::ModeText, []) => {}
        (Form::ModeRange, &[lowest, highest]) => {
            bytes.finite(lowest)?;
            bytes.finite(highest)?;
        }
        (Form::ModeMapping, &[mapping]) => bytes.two_bytes(mapping),
        (Form::ModeBias, &[bias]) => bytes.byte_of(bias, lists::is_bias)?,
        (Form::ModeCapabilities, &[bits]) => bytes.six_bytes(bits)?,
        (Form::ValueFormat, &[datasets, kind, figures, decimals]) => {
            bytes.byte_of(datasets, lists::is_datasets)?;
            bytes.byte_of(kind, lists::is_dataset_kind)?;
            bytes.byte(figures);
            bytes.byte(decimals);
        }
        _ => other_values(values),
    }
    Ok(())
}
