use crate::decoded::Decoded;
use crate::fields::Fields;
use crate::form::Form;
use crate::lists;
use crate::refusal::Refusal;

/// Port Information Request, 21.
pub(crate) fn information_request(mut fields: Fields) -> Result<Decoded, Refusal> {
    fields.size_is(5)?;
    fields.port();
    fields.byte_of(lists::is_port_information_type)?;
    fields.accept(Form::PortInformationRequest)
}

/// Port Information, 43.
pub(crate) fn information(mut fields: Fields) -> Result<Decoded, Refusal> {
    fields.selectors_up_to(4)?;
    fields.port();
    let information_type = fields.byte_of(lists::is_port_information)?;
    if information_type == 1 {
        modes(fields)
    } else {
        combinations(fields)
    }
}

fn modes(mut fields: Fields) -> Result<Decoded, Refusal> {
    fields.size_is(11)?;
    fields.byte_of(lists::is_port_capabilities)?;
    fields.byte(); // mode count
    fields.two_bytes(); // input modes
    fields.two_bytes(); // output modes
    fields.accept(Form::PortModes)
}

/// The size of a list of mode combinations that has one of them.
const ONE_COMBINATION: usize = 7;

/// One to eight mode combinations. Their count is handed out before them, and entries past it are 0.
fn combinations(mut fields: Fields) -> Result<Decoded, Refusal> {
    let count: u8 = match fields.size() {
        ONE_COMBINATION => 1,
        9 => 2,
        11 => 3,
        13 => 4,
        15 => 5,
        17 => 6,
        19 => 7,
        21 => 8,
        _ => return Err(Refusal::size(ONE_COMBINATION)),
    };
    fields.derived(count);
    for _ in 0..count {
        fields.two_bytes();
    }
    for _ in count..8 {
        fields.derived(0u8);
    }
    fields.accept(Form::PortCombinations)
}

/// Port Value (Single), 45, with one port's value.
pub(crate) fn value(mut fields: Fields) -> Result<Decoded, Refusal> {
    fields.size_in(5..=127)?;
    fields.port();
    fields.accept_open(Form::PortValue)
}

/// Port Input Format Setup (Single), 41.
pub(crate) fn input_format_setup(fields: Fields) -> Result<Decoded, Refusal> {
    setup(fields, Form::InputFormatSetup)
}

/// Port Input Format (Single), 47.
pub(crate) fn input_format(fields: Fields) -> Result<Decoded, Refusal> {
    setup(fields, Form::InputFormat)
}

fn setup(mut fields: Fields, form: Form) -> Result<Decoded, Refusal> {
    fields.size_is(10)?;
    fields.port();
    fields.mode()?;
    fields.four_bytes(); // delta
    fields.byte_of(lists::is_notify)?;
    fields.accept(form)
}

/// Virtual Port Setup, 61.
pub(crate) fn virtual_setup(mut fields: Fields) -> Result<Decoded, Refusal> {
    fields.selectors_up_to(3)?;
    let sub = fields.byte_of(lists::is_sub)?;
    if sub == 0 {
        fields.size_is(5)?;
        fields.port();
        fields.accept(Form::VirtualDisconnect)
    } else {
        fields.size_is(6)?;
        fields.port();
        fields.port();
        fields.accept(Form::VirtualConnect)
    }
}
