use crate::encode::bytes::Bytes;

/// Go Into Boot Mode, 10, which has no values.
pub(super) fn go_into_boot_mode(bytes: &mut Bytes) {
    bytes.run(b"LPF2-Boot");
}
