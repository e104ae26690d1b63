//! What one accepted message says about ports.

use crate::decoded::Decoded;
use crate::form::Form;

/// The port that a message on a port is about.
pub(super) fn port(message: &Decoded) -> u64 {
    message.values()[0]
}

/// Whether a message attaches a port, plain or virtual.
pub(super) fn attaches(message: &Decoded, the_port: u64) -> bool {
    matches!(message.form, Form::Attached | Form::AttachedVirtual) && port(message) == the_port
}

/// The members that a virtual attachment names.
pub(super) fn members(message: &Decoded) -> Option<[u64; 2]> {
    match (message.form, message.values()) {
        (Form::AttachedVirtual, &[_, _, _, port_a, port_b]) => Some([port_a, port_b]),
        _ => None,
    }
}

/// Whether a message ends what an attachment began: the port's detachment, a member's, or a table-emptying notice.
pub(super) fn ends(message: &Decoded, attachment: &Decoded) -> bool {
    match message.form {
        Form::Detached => {
            let detached = port(message);
            detached == port(attachment) || members(attachment).is_some_and(|members| members.contains(&detached))
        }
        Form::HubAction => matches!(message.values(), [0x30..=0x32]),
        _ => false,
    }
}
