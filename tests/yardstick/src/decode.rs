use crate::decoded::Decoded;
use crate::fields::Fields;
use crate::refusal::Refusal;
use crate::way::Way;
use crate::{combined, firmware, header, hub, hub_property, mode_information, output, port};

/// Reads one message: its form and fields, or the first refusal in the order of the rules.
pub fn decode(way: Way, message: &[u8]) -> Result<Decoded, Refusal> {
    let message_type = header::message_type(message)?;
    let fields = Fields::after_header(message);
    match (message_type, way) {
        (0x01, _) => hub_property::property(way, fields),
        (0x02, _) => hub::action(way, fields),
        (0x03, Way::Down) => hub::alert_command(fields),
        (0x03, Way::Up) => hub::alert_update(fields),
        (0x04, Way::Up) => hub::attached_io(fields),
        (0x05, Way::Up) => hub::generic_error(fields),
        (0x10, Way::Down) => firmware::go_into_boot_mode(fields),
        (0x11, Way::Down) => firmware::lock_memory(fields),
        (0x12, Way::Down) => firmware::lock_status_request(fields),
        (0x13, Way::Up) => firmware::lock_status(fields),
        (0x21, Way::Down) => port::information_request(fields),
        (0x22, Way::Down) => mode_information::request(fields),
        (0x41, Way::Down) => port::input_format_setup(fields),
        (0x42, Way::Down) => combined::setup(fields),
        (0x43, Way::Up) => port::information(fields),
        (0x44, Way::Up) => mode_information::information(fields),
        (0x45, Way::Up) => port::value(fields),
        (0x46, Way::Up) => combined::value(fields),
        (0x47, Way::Up) => port::input_format(fields),
        (0x48, Way::Up) => combined::input_format(fields),
        (0x61, Way::Down) => port::virtual_setup(fields),
        (0x81, Way::Down) => output::command(fields),
        (0x82, Way::Up) => output::feedback(fields),
        _ => Err(Refusal::MESSAGE_TYPE),
    }
}
