/// The form of an accepted message. The discriminant is the form's number.
#[derive(Clone, Copy, Debug, PartialEq, Eq)]
#[repr(u8)]
pub enum Form {
    /// 01 without payload.
    PropertyCommand = 1,
    /// 01 with the text of properties 1, 8 or 9.
    PropertyText = 2,
    /// 01 with the byte of properties 2, 6, 7, 11, 12 or 15.
    PropertyByte = 3,
    /// 01 with the signal strength, property 5.
    PropertyRssi = 4,
    /// 01 with a version, properties 3 and 4.
    PropertyVersion = 5,
    /// 01 with the protocol version, property 10.
    PropertyProtocol = 6,
    /// 01 with a MAC address, properties 13 and 14.
    PropertyAddress = 7,
    /// 02.
    HubAction = 8,
    /// 03 down.
    AlertCommand = 9,
    /// 03 up.
    AlertUpdate = 10,
    /// 04, event 0.
    Detached = 11,
    /// 04, event 1.
    Attached = 12,
    /// 04, event 2.
    AttachedVirtual = 13,
    /// 05.
    GenericError = 14,
    /// 10.
    GoIntoBootMode = 15,
    /// 11.
    LockMemory = 16,
    /// 12.
    LockStatusRequest = 17,
    /// 13.
    LockStatus = 18,
    /// 21.
    PortInformationRequest = 19,
    /// 22.
    ModeInformationRequest = 20,
    /// 41.
    InputFormatSetup = 21,
    /// 43, type 1.
    PortModes = 22,
    /// 43, type 2.
    PortCombinations = 23,
    /// 44, types 0 and 4.
    ModeText = 24,
    /// 44, types 1, 2 and 3.
    ModeRange = 25,
    /// 44, type 5.
    ModeMapping = 26,
    /// 44, type 7.
    ModeBias = 27,
    /// 44, type 8.
    ModeCapabilities = 28,
    /// 44, type 80.
    ValueFormat = 29,
    /// 45.
    PortValue = 30,
    /// 47.
    InputFormat = 31,
    /// 61, sub 0.
    VirtualDisconnect = 32,
    /// 61, sub 1.
    VirtualConnect = 33,
    /// 81, sub 0C.
    StartSpeedForDegrees = 34,
    /// 81, sub 0D.
    GotoAbsolutePosition = 35,
    /// 81, sub 0E.
    GotoAbsolutePositions = 36,
    /// 81, sub 14.
    PresetEncoders = 37,
    /// 82.
    OutputFeedback = 38,
    /// 42, sub commands 2, 3, 4 and 6.
    CombinedSetup = 39,
    /// 42, sub command 1.
    ModeDatasets = 40,
    /// 46.
    PortValueCombined = 41,
    /// 48.
    InputFormatCombined = 42,
}

impl Form {
    /// How many forms there are; their numbers run from 1 to this one.
    pub const COUNT: usize = Form::InputFormatCombined as usize;

    /// Every form, in the order of their numbers.
    pub const ALL: [Form; Form::COUNT] = [
        Form::PropertyCommand,
        Form::PropertyText,
        Form::PropertyByte,
        Form::PropertyRssi,
        Form::PropertyVersion,
        Form::PropertyProtocol,
        Form::PropertyAddress,
        Form::HubAction,
        Form::AlertCommand,
        Form::AlertUpdate,
        Form::Detached,
        Form::Attached,
        Form::AttachedVirtual,
        Form::GenericError,
        Form::GoIntoBootMode,
        Form::LockMemory,
        Form::LockStatusRequest,
        Form::LockStatus,
        Form::PortInformationRequest,
        Form::ModeInformationRequest,
        Form::InputFormatSetup,
        Form::PortModes,
        Form::PortCombinations,
        Form::ModeText,
        Form::ModeRange,
        Form::ModeMapping,
        Form::ModeBias,
        Form::ModeCapabilities,
        Form::ValueFormat,
        Form::PortValue,
        Form::InputFormat,
        Form::VirtualDisconnect,
        Form::VirtualConnect,
        Form::StartSpeedForDegrees,
        Form::GotoAbsolutePosition,
        Form::GotoAbsolutePositions,
        Form::PresetEncoders,
        Form::OutputFeedback,
        Form::CombinedSetup,
        Form::ModeDatasets,
        Form::PortValueCombined,
        Form::InputFormatCombined,
    ];

    /// The form's number.
    pub const fn number(self) -> u8 {
        self as u8
    }

    /// The form of a number, if there is one.
    pub fn of_number(number: u64) -> Option<Form> {
        let index = usize::try_from(number).ok()?.checked_sub(1)?;
        Form::ALL.get(index).copied()
    }
}
