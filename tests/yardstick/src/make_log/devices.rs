//! What is connected to the hub of a bench.

/// A device at a port.
pub(super) struct Device {
    pub(super) port: u8,
    pub(super) device: u16,
    /// The members of a virtual port.
    pub(super) members: Option<[u8; 2]>,
    /// Whether it can be pulled.
    pub(super) external: bool,
    /// The modes that are used. Each has its number, its name and its format as sent.
    pub(super) modes: &'static [(u8, &'static [u8], [u8; 4])],
    /// The lists that it is asked for, each an index of its combinations. Their modes are among those above.
    pub(super) lists: &'static [&'static [u8]],
}

/// The device number of a motor with tacho, and of two that are joined.
pub(super) const MOTOR_DEVICE: u16 = 0x0026;

/// Motor with tacho: power, speed, position.
const MOTOR: &[(u8, &[u8], [u8; 4])] = &[
    (2, b"POS", [1, 2, 11, 0]),
    (1, b"SPEED", [1, 0, 4, 0]),
    (0, b"POWER", [1, 0, 4, 0]),
    (3, b"APOS", [1, 1, 4, 0]),
];

const fn internal(port: u8, device: u16, modes: &'static [(u8, &'static [u8], [u8; 4])]) -> Device {
    Device {
        port,
        device,
        members: None,
        external: false,
        modes,
        lists: &[],
    }
}

const fn external(port: u8, device: u16, modes: &'static [(u8, &'static [u8], [u8; 4])]) -> Device {
    Device {
        external: true,
        ..internal(port, device, modes)
    }
}

/// All devices, a virtual port after its members.
pub(super) const DEVICES: &[Device] = &[
    external(0, MOTOR_DEVICE, MOTOR),
    external(1, MOTOR_DEVICE, MOTOR),
    Device {
        members: Some([0, 1]),
        ..internal(
            16,
            MOTOR_DEVICE,
            &[(2, b"POS", [2, 2, 11, 0]), (1, b"SPEED", [2, 0, 4, 0])],
        )
    },
    // Vision sensor: colour, distance, red green and blue, all together.
    Device {
        lists: &[
            &[0x00, 0x10],
            &[0x00, 0x10, 0x60, 0x61, 0x62],
            &[0x62, 0x61, 0x60],
            &[0x10],
        ],
        ..external(
            2,
            0x0025,
            &[
                (0, b"COLOR", [1, 0, 3, 0]),
                (1, b"PROX", [1, 0, 3, 0]),
                (6, b"RGB I", [3, 1, 5, 0]),
                (8, b"SPEC 1", [4, 0, 3, 0]),
            ],
        )
    },
    // A load cell that sends floats: force, and force and torque along three axes.
    external(3, 0x0040, &[(0, b"FORCE", [1, 3, 8, 3]), (1, b"LOAD", [6, 3, 8, 3])]),
    // RGB light, which sends nothing.
    internal(50, 0x0017, &[]),
    // Internal tilt: angles, acceleration.
    internal(58, 0x0028, &[(0, b"ANGLE", [2, 0, 3, 0]), (4, b"ACCEL", [3, 0, 3, 0])]),
    // Current, voltage.
    internal(59, 0x0015, &[(0, b"CUR L", [1, 1, 4, 0])]),
    internal(60, 0x0014, &[(0, b"VLT L", [1, 1, 4, 0])]),
];
