use crate::form::Form;

/// What a value of a form is in a message that was read, before any list is looked at.
#[derive(Clone, Copy, Debug, PartialEq, Eq)]
pub enum Kind {
    /// The one value of a selector that the form decides.
    Fixed(u8),
    /// One byte.
    Byte,
    /// Two bytes.
    TwoBytes,
    /// Four bytes.
    FourBytes,
    /// A signed byte, in two's complement of 64 bits.
    SignedByte,
    /// Four bytes, signed, in two's complement of 64 bits.
    SignedFourBytes,
    /// Six bytes in a number of 64 bits, which may be too large for them.
    SixBytes,
    /// The 32 bits of a float.
    Float,
}

impl Kind {
    /// How many bytes a value of this kind has in a message.
    pub(crate) fn width(self) -> usize {
        match self {
            Kind::Fixed(_) | Kind::Byte | Kind::SignedByte => 1,
            Kind::TwoBytes => 2,
            Kind::FourBytes | Kind::SignedFourBytes | Kind::Float => 4,
            Kind::SixBytes => 6,
        }
    }

    /// Whether a number is a value of this kind.
    pub fn holds(self, number: u64) -> bool {
        match self {
            Kind::Fixed(value) => number == u64::from(value),
            Kind::Byte => u8::try_from(number).is_ok(),
            Kind::TwoBytes => u16::try_from(number).is_ok(),
            Kind::FourBytes | Kind::Float => u32::try_from(number).is_ok(),
            Kind::SignedByte => i8::try_from(number as i64).is_ok(),
            Kind::SignedFourBytes => i32::try_from(number as i64).is_ok(),
            Kind::SixBytes => true,
        }
    }
}

impl Form {
    /// The kinds of the form's values, left to right.
    pub fn kinds(self) -> &'static [Kind] {
        use Kind::*;
        match self {
            Form::PropertyCommand | Form::PropertyText => &[Byte, Byte],
            Form::PropertyByte => &[Byte, Byte, Byte],
            Form::PropertyRssi => &[Fixed(5), Byte, SignedByte],
            Form::PropertyVersion => &[Byte, Byte, SignedFourBytes],
            Form::PropertyProtocol => &[Fixed(10), Byte, TwoBytes],
            Form::PropertyAddress => &[Byte, Byte, SixBytes],
            Form::HubAction => &[Byte],
            Form::AlertCommand => &[Byte, Byte],
            Form::AlertUpdate => &[Byte, Fixed(4), Byte],
            Form::Detached => &[Byte, Fixed(0)],
            Form::Attached => &[Byte, Fixed(1), TwoBytes, SignedFourBytes, SignedFourBytes],
            Form::AttachedVirtual => &[Byte, Fixed(2), TwoBytes, Byte, Byte],
            Form::GenericError => &[Byte, Byte],
            Form::GoIntoBootMode | Form::LockMemory | Form::LockStatusRequest => &[],
            Form::LockStatus => &[Byte],
            Form::PortInformationRequest => &[Byte, Byte],
            Form::ModeInformationRequest => &[Byte, Byte, Byte],
            Form::InputFormatSetup | Form::InputFormat => &[Byte, Byte, FourBytes, Byte],
            Form::PortModes => &[Byte, Fixed(1), Byte, Byte, TwoBytes, TwoBytes],
            Form::PortCombinations => &[
                Byte,
                Fixed(2),
                Byte,
                TwoBytes,
                TwoBytes,
                TwoBytes,
                TwoBytes,
                TwoBytes,
                TwoBytes,
                TwoBytes,
                TwoBytes,
            ],
            Form::ModeText => &[Byte, Byte, Byte],
            Form::ModeRange => &[Byte, Byte, Byte, Float, Float],
            Form::ModeMapping => &[Byte, Byte, Fixed(5), TwoBytes],
            Form::ModeBias => &[Byte, Byte, Fixed(7), Byte],
            Form::ModeCapabilities => &[Byte, Byte, Fixed(8), SixBytes],
            Form::ValueFormat => &[Byte, Byte, Fixed(0x80), Byte, Byte, Byte, Byte],
            Form::PortValue => &[Byte],
            Form::VirtualDisconnect => &[Fixed(0), Byte],
            Form::VirtualConnect => &[Fixed(1), Byte, Byte],
            Form::StartSpeedForDegrees => &[
                Byte,
                Byte,
                Fixed(0x0C),
                SignedFourBytes,
                SignedByte,
                SignedByte,
                Byte,
                Byte,
                Byte,
            ],
            Form::GotoAbsolutePosition => &[Byte, Byte, Fixed(0x0D), SignedFourBytes, Byte, Byte, Byte, Byte],
            Form::GotoAbsolutePositions => &[
                Byte,
                Byte,
                Fixed(0x0E),
                SignedFourBytes,
                SignedFourBytes,
                Byte,
                Byte,
                Byte,
                Byte,
            ],
            Form::PresetEncoders => &[Byte, Byte, Fixed(0x14), SignedFourBytes, SignedFourBytes],
            Form::OutputFeedback => &[],
            Form::CombinedSetup => &[Byte, Byte],
            Form::ModeDatasets => &[Byte, Fixed(1), Byte],
            Form::PortValueCombined => &[Byte, TwoBytes],
            Form::InputFormatCombined => &[Byte, Byte, TwoBytes],
        }
    }
}
