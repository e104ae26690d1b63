use super::float::float;
use crate::random::Random;
use crate::way::Way;

/// The known types that go a way.
pub fn known_types(way: Way) -> &'static [u8] {
    match way {
        Way::Down => &[0x01, 0x02, 0x03, 0x10, 0x11, 0x12, 0x21, 0x22, 0x41, 0x42, 0x61, 0x81],
        Way::Up => &[
            0x01, 0x02, 0x03, 0x04, 0x05, 0x13, 0x43, 0x44, 0x45, 0x46, 0x47, 0x48, 0x82,
        ],
    }
}

/// Makes a random message that is nearly or wholly a valid one, and gives its way. Types, selectors, fields, sizes
/// and the header are mostly right; what is wrong is often only just so.
pub fn plausible(random: &mut Random, message: &mut Vec<u8>) -> Way {
    let way = random.one_of(&Way::BOTH);
    let message_type = match random.below(48) {
        0 => random.byte(),
        1 => {
            let other = random.one_of(&Way::BOTH);
            random.one_of(known_types(other))
        }
        // These types have the most forms.
        2..=7 => 0x01,
        8..=13 if way == Way::Up => 0x44,
        8..=11 => 0x81,
        _ => random.one_of(known_types(way)),
    };
    message.clear();
    message.extend([0, 0, message_type]);
    Body { random, message }.fill(way, message_type);
    resize(random, message);
    fill_header(random, message);
    way
}

/// Changes the size now and then.
fn resize(random: &mut Random, message: &mut Vec<u8>) {
    let size = message.len();
    let new_size = match random.below(64) {
        0 => size - 1,
        1 => size + 1,
        2 => size.saturating_sub(2),
        3 => size + 2,
        4 => random.below(8),
        5 => random.below(141),
        _ => size,
    };
    message.resize_with(new_size, || random.byte());
}

/// Sets byte 0, mostly to the size, and now and then byte 1.
fn fill_header(random: &mut Random, message: &mut [u8]) {
    let size = message.len() as u8;
    if let Some(length) = message.first_mut() {
        *length = match random.below(128) {
            0 => size ^ 0x80,
            1 => size.wrapping_sub(1),
            2 => size + 1,
            3 => random.byte(),
            _ => size,
        };
    }
    if let Some(hub_id) = message.get_mut(1) {
        if random.once_in(48) {
            *hub_id = random.one_of(&[1, 0x80, 0xFF]);
        }
    }
}

/// The contents after the header.
struct Body<'a> {
    random: &'a mut Random,
    message: &'a mut Vec<u8>,
}

impl Body<'_> {
    fn fill(&mut self, way: Way, message_type: u8) {
        match message_type {
            0x01 => self.property(way),
            0x02 => {
                self.listed(match way {
                    Way::Down => &[0x01, 0x02, 0x03, 0x04, 0x05, 0x06, 0x2F],
                    Way::Up => &[0x30, 0x31, 0x32],
                });
            }
            0x03 => {
                self.between(1, 4);
                match way {
                    Way::Down => self.between(1, 3),
                    Way::Up => {
                        self.listed(&[4]);
                        self.listed(&[0x00, 0xFF])
                    }
                };
            }
            0x04 => {
                self.any(1);
                match self.between(0, 2) {
                    0 => {}
                    1 => self.any(10),
                    _ => self.any(4),
                }
            }
            0x05 => {
                self.any(1);
                self.between(1, 8);
            }
            0x10 => self.fixed_string(b"LPF2-Boot"),
            0x11 => self.fixed_string(b"Lock Mem"),
            0x12 => {}
            0x13 => self.any(1),
            0x21 => {
                self.any(1);
                self.between(0, 2);
            }
            0x22 => {
                self.any(1);
                self.between(0, 15);
                self.information_type();
            }
            0x41 | 0x47 => {
                self.any(1);
                self.between(0, 15);
                self.any(4);
                self.between(0, 1);
            }
            0x42 => {
                self.any(1);
                if self.listed(&[1, 1, 1, 2, 3, 4, 6]) == 1 {
                    self.any(1);
                    self.entries();
                }
            }
            0x43 => {
                self.any(1);
                if self.between(1, 2) == 1 {
                    self.between(0, 15);
                    self.any(5);
                } else {
                    let count = self.random.between(0, 9);
                    self.any(2 * count);
                }
            }
            0x44 => self.mode_information(),
            0x45 => {
                self.any(1);
                self.open(1, 123);
            }
            0x46 => {
                self.any(3);
                self.open(1, 121);
            }
            0x48 => self.any(4),
            0x61 => {
                if self.between(0, 1) == 0 {
                    self.any(1);
                } else {
                    self.any(2);
                }
            }
            0x81 => self.motor_command(),
            0x82 => self.feedback(),
            _ => self.open(0, 124),
        }
    }

    fn property(&mut self, way: Way) {
        let property = self.between(1, 15);
        let operation = match way {
            Way::Down => self.between(1, 5),
            Way::Up => self.listed(&[6]),
        };
        if operation != 1 && operation != 6 {
            return;
        }
        match property {
            1 => self.open(1, 14),
            2 | 7 => {
                self.between(0, 1);
            }
            3 | 4 => self.any(4),
            6 => {
                self.between(0, 100);
            }
            8 | 9 => self.open(1, 122),
            10 => self.any(2),
            13 | 14 => self.any(6),
            15 => {
                self.between(0, 8);
            }
            _ => self.any(1),
        }
    }

    fn mode_information(&mut self) {
        self.any(1);
        self.between(0, 15);
        match self.information_type() {
            0 => self.open(1, 11),
            1..=3 => {
                self.float();
                self.float();
            }
            4 => self.open(1, 5),
            5 => self.any(2),
            7 => {
                self.between(0, 100);
            }
            8 => self.any(6),
            _ => {
                self.between(1, 16);
                self.between(0, 3);
                self.any(2);
            }
        }
    }

    fn motor_command(&mut self) {
        self.any(1);
        self.listed(&[0x00, 0x01, 0x10, 0x11]);
        match self.listed(&[0x0C, 0x0D, 0x0E, 0x14]) {
            0x0C => {
                self.degrees();
                self.signed_speed();
                self.signed_speed();
                self.power_and_end();
            }
            0x0D => {
                self.any(4);
                self.between(1, 100);
                self.power_and_end();
            }
            0x0E => {
                self.any(8);
                self.between(1, 100);
                self.power_and_end();
            }
            _ => self.any(8),
        }
    }

    /// 0 to 10,000,000, or now and then a number next to that or any.
    fn degrees(&mut self) {
        let degrees = match self.random.below(32) {
            0 => -1,
            1 => 10_000_001,
            2 => self.random.number() as i32,
            _ => self.random.between(0, 10_000_000) as i32,
        };
        self.message.extend(degrees.to_le_bytes());
    }

    /// -100 to 100, or now and then a number next to that or any.
    fn signed_speed(&mut self) {
        let speed = match self.random.below(48) {
            0 => -101,
            1 => 101,
            2 => self.random.byte() as i8,
            _ => (self.random.between(0, 200) as i16 - 100) as i8,
        };
        self.message.extend(speed.to_le_bytes());
    }

    fn power_and_end(&mut self) {
        self.between(0, 100);
        self.listed(&[0, 126, 127]);
        self.between(0, 3);
    }

    /// Mostly few pairs, now and then any number of them, or half a pair more.
    fn feedback(&mut self) {
        let pairs = match self.random.below(8) {
            0 => self.random.between(0, 62),
            _ => self.random.between(1, 4),
        };
        for _ in 0..pairs {
            self.any(1);
            self.feedback_of(pairs);
        }
        if self.random.once_in(32) {
            self.any(1);
        }
    }

    /// Feedback of one of so many pairs. The more there are, the rarer is a wrong one.
    fn feedback_of(&mut self, pairs: usize) {
        let feedback = match self.random.below(48 * pairs) {
            0 => self.random.byte(),
            1 => 0x20,
            _ => self.random.between(0, 0x1F) as u8,
        };
        self.push(feedback);
    }

    /// Mostly few entries of a list, now and then one that was there before, or none, or too many.
    fn entries(&mut self) {
        let count = match self.random.below(32) {
            0 => 0,
            1 => 17,
            2..=9 => self.random.between(1, 16),
            _ => self.random.between(1, 4),
        };
        let start = self.message.len();
        for _ in 0..count {
            let is_repeated = self.random.once_in(24 * count);
            let before = self.message[start..].to_vec();
            let entry = match before[..] {
                [_, ..] if is_repeated => self.random.one_of(&before),
                _ => self.random.byte(),
            };
            self.push(entry);
        }
    }

    fn information_type(&mut self) -> u8 {
        self.listed(&[0, 1, 2, 3, 4, 5, 7, 8, 0x80])
    }

    fn push(&mut self, byte: u8) -> u8 {
        self.message.push(byte);
        byte
    }

    /// Any bytes.
    fn any(&mut self, count: usize) {
        for _ in 0..count {
            let byte = self.random.byte();
            self.push(byte);
        }
    }

    /// A byte of a list, or now and then any byte.
    fn listed(&mut self, list: &[u8]) -> u8 {
        let byte = match self.random.below(32) {
            0 => self.random.byte(),
            _ => self.random.one_of(list),
        };
        self.push(byte)
    }

    /// A byte from `least` to `most`, or now and then the next one outside or any byte.
    fn between(&mut self, least: u8, most: u8) -> u8 {
        let byte = match self.random.below(64) {
            0 => self.random.byte(),
            1 => most.wrapping_add(1),
            2 => least.wrapping_sub(1),
            _ => self.random.between(least.into(), most.into()) as u8,
        };
        self.push(byte)
    }

    /// `least` to `most` bytes, or now and then one too few or one too many.
    fn open(&mut self, least: usize, most: usize) {
        let count = match self.random.below(32) {
            0 => least.saturating_sub(1),
            1 => most + 1,
            _ => self.random.between(least, most),
        };
        self.any(count);
    }

    /// A fixed string, now and then with one byte changed.
    fn fixed_string(&mut self, text: &[u8]) {
        let start = self.message.len();
        self.message.extend(text);
        if self.random.once_in(4) {
            let place = start + self.random.below(text.len());
            self.message[place] = self.random.byte();
        }
    }

    fn float(&mut self) {
        let bits = float(self.random);
        self.message.extend(bits.to_le_bytes());
    }
}
