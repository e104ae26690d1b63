use crate::decoded::Decoded;
use crate::fields::Fields;
use crate::form::Form;
use crate::refusal::Refusal;

/// Go Into Boot Mode, 10.
pub(crate) fn go_into_boot_mode(mut fields: Fields) -> Result<Decoded, Refusal> {
    fields.size_is(12)?;
    fields.fixed_string(b"LPF2-Boot")?;
    fields.accept(Form::GoIntoBootMode)
}

/// Lock Memory, 11.
pub(crate) fn lock_memory(mut fields: Fields) -> Result<Decoded, Refusal> {
    fields.size_is(11)?;
    fields.fixed_string(b"Lock Mem")?;
    fields.accept(Form::LockMemory)
}

/// Lock Status Request, 12.
pub(crate) fn lock_status_request(fields: Fields) -> Result<Decoded, Refusal> {
    fields.size_is(3)?;
    fields.accept(Form::LockStatusRequest)
}

/// Lock Status, 13.
pub(crate) fn lock_status(mut fields: Fields) -> Result<Decoded, Refusal> {
    fields.size_is(4)?;
    fields.byte();
    fields.accept(Form::LockStatus)
}
