//! Names of every kind: empty, plain, with bytes that must be escaped, and longer than the field.

use super::chance::Chance;

const PLAIN: &[u8] = b"pumpvalvealarmheater 0123456789_-";
const EDGES: &[u8] = &[
    0x01, 0x0A, 0x1F, 0x20, b'"', b'\\', b'/', 0x7E, 0x7F, 0x80, 0xC3, 0xFF,
];

/// A name of the length, with no zero byte in it.
pub fn name(chance: &mut Chance, length: usize) -> Vec<u8> {
    let style = chance.below(6);
    let mut byte = || match style {
        0 => chance.pick(EDGES),
        1 => chance.byte().max(1),
        _ => chance.pick(PLAIN),
    };
    (0..length).map(|_| byte()).collect()
}

/// What lies in a name field: a name, then zeros or anything after a first zero.
pub fn name_field(chance: &mut Chance, size: usize) -> Vec<u8> {
    let length = match chance.below(6) {
        0 => 0,
        1 => size,
        2 => size - 1,
        _ => chance.between(1, size.min(8)),
    };
    let mut field = name(chance, length);
    field.resize(size, 0);
    if length < size && chance.one_in(3) {
        for byte in &mut field[length + 1..] {
            *byte = chance.byte();
        }
    }
    field
}

/// A name as handed to a registration; it may be longer than the field, or hold a zero byte.
pub fn name_to_register(chance: &mut Chance, size: usize) -> Vec<u8> {
    let length = match chance.below(12) {
        0 => 0,
        1 | 2 => size,
        3 => size + 1,
        4 => size + chance.below(12),
        5 if chance.one_in(40) => 900,
        _ => chance.between(1, size.min(8)),
    };
    let mut given = name(chance, length);
    if length > 0 && chance.one_in(8) {
        let place = chance.pick(&[0, length - 1, length / 2]);
        given[place] = 0;
    }
    given
}
