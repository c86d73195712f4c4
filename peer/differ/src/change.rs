//! Small changes to a buffer, so that inputs come close to the limits between sound and refused.

use peer::generate::chance::Chance;

const HEADER: usize = 48;

/// Changes one to three places; now and then the length too.
pub fn change(chance: &mut Chance, buffer: &mut Vec<u8>) {
    if chance.one_in(12) {
        change_length(chance, buffer);
    }
    for _ in 0..chance.pick(&[1, 1, 1, 2, 3]) {
        if !buffer.is_empty() {
            change_place(chance, buffer);
        }
    }
}

/// A little longer or shorter, or cut anywhere.
fn change_length(chance: &mut Chance, buffer: &mut Vec<u8>) {
    let step = chance.pick(&[1, 4, 31, 32, 33, 80]);
    let length = match chance.below(3) {
        0 => buffer.len() + step,
        1 => buffer.len().saturating_sub(step),
        _ => chance.below(buffer.len()),
    };
    buffer.resize(length, 0);
}

fn change_place(chance: &mut Chance, buffer: &mut [u8]) {
    // Even in a large buffer some changes are to fall into the header.
    let limit = if chance.one_in(6) {
        buffer.len().min(HEADER)
    } else {
        buffer.len()
    };
    let at = chance.below(limit);
    let byte = buffer[at];
    match chance.below(6) {
        0 | 1 => buffer[at] = byte ^ 1 << chance.below(8),
        2 => buffer[at] = chance.byte(),
        3 => buffer[at] = chance.pick(&[0, 1, 14, 15, 20, 21, 28, 29, 0x7F, 0xFF]),
        4 => buffer[at] = chance.pick(&[byte.wrapping_add(1), byte.wrapping_sub(1)]),
        _ => copy_word(chance, buffer, at),
    }
}

/// A word copied from elsewhere is one that already means something: a pointer, a stamp, an id.
fn copy_word(chance: &mut Chance, buffer: &mut [u8], at: usize) {
    let words = buffer.len() / 4;
    if words > 0 {
        let from = 4 * chance.below(words);
        buffer.copy_within(from..from + 4, (at / 4).min(words - 1) * 4);
    }
}
