use crate::random::Random;
use crate::way::Way;

/// Does a message some harm: another way, another byte, another size, with the length in byte 0 changed to it or not.
pub(super) fn damage(random: &mut Random, way: &mut Way, message: &mut Vec<u8>) {
    match random.below(6) {
        0 => *way = random.one_of(&Way::BOTH),
        1 => {
            let place = random.below(message.len());
            message[place] = random.byte();
        }
        2 => {
            let place = random.below(message.len());
            message[place] ^= 1 << random.below(8);
        }
        3 => message.truncate(random.below(message.len())),
        4 => {
            message.pop();
            adjust_length(message);
        }
        _ => {
            message.push(random.byte());
            adjust_length(message);
        }
    }
}

fn adjust_length(message: &mut [u8]) {
    let length = message.len() as u8;
    if let Some(first) = message.first_mut() {
        *first = length;
    }
}
