//! Bytes of fields: those that they should hold, and those that they should not.

use crate::generate::random::Random;

/// Any byte but this one, and those that are near it often.
pub fn any_other(random: &mut Random, byte: u8, near: &[u8]) -> u8 {
    loop {
        let any = random.byte();
        let picked = *random.pick(near);
        let other = *random.pick(&[picked, picked, picked, any]);
        if other != byte {
            return other;
        }
    }
}

/// Any byte that is no digit, and those that are taken for one often.
pub fn no_digit(random: &mut Random) -> u8 {
    loop {
        let other = any_other(random, b'0', b" /:-+.,AO\x00\x05\xb1\xff");
        if !other.is_ascii_digit() {
            return other;
        }
    }
}

pub fn put_digits(random: &mut Random, record: &mut [u8], from: usize, to: usize) {
    let zeros = random.once_in(6);
    for byte in &mut record[from - 1..to] {
        *byte = if zeros { b'0' } else { random.digit() };
    }
}

/// A field that is not all blank: often a single character, at either end too.
pub fn put_text(random: &mut Random, record: &mut [u8], from: usize, to: usize) {
    let text = &mut record[from - 1..to];
    text.fill(b' ');
    if random.once_in(2) {
        text.fill_with(|| random.character());
    }
    if text.iter().all(|&byte| byte == b' ') {
        let position = random.position(from, to);
        record[position - 1] = random.character_with(|byte| byte != b' ');
    }
}
