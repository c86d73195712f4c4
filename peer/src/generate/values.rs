//! Values for the fields: allowed ones with a leaning to the limits, and ones that are not allowed.

use super::chance::Chance;
use crate::limits::{INIT_POINTER, ISR_POINTER};
use crate::order::ByteOrder;

pub fn order(chance: &mut Chance) -> ByteOrder {
    chance.pick(&[ByteOrder::Little, ByteOrder::Big])
}

pub fn mask(chance: &mut Chance) -> u32 {
    let width = match chance.below(4) {
        0 => 16,
        1 => 32,
        _ => chance.between(1, 32),
    };
    u32::MAX >> (32 - width)
}

pub fn bad_mask(chance: &mut Chance, mask: u32) -> u32 {
    let hole = mask & !(1 << chance.below(31));
    let known = [
        0,
        2,
        5,
        6,
        0xFF00,
        0xFFFE,
        0x8000_0000,
        0x8000_0001,
        u32::MAX - 1,
    ];
    match chance.below(5) {
        0 => mask.wrapping_add(1),
        1 => hole,
        2 => mask.swap_bytes(),
        3 => chance.word(),
        _ => chance.pick(&known),
    }
}

pub fn name_size(chance: &mut Chance) -> u16 {
    match chance.below(3) {
        0 => 4,
        1 => chance.pick(&[8, 12, 16]),
        _ => 4 * chance.between(1, 16) as u16,
    }
}

pub fn bad_name_size(chance: &mut Chance, name_size: u16) -> u16 {
    let known = [
        0, 1, 2, 3, 5, 6, 7, 9, 62, 63, 65, 66, 68, 72, 128, 0xFFFC, 0xFFFF,
    ];
    match chance.below(4) {
        0 => name_size.wrapping_add(chance.pick(&[1, 2, 3])),
        1 => name_size.swap_bytes(),
        _ => chance.pick(&known),
    }
}

/// A base for a buffer of the size; often one from which the pointers run past the top of memory.
pub fn base(chance: &mut Chance, size: usize) -> u32 {
    match chance.below(6) {
        0 => 0u32.wrapping_sub(size as u32),
        1 => 0u32.wrapping_sub(chance.between(1, size) as u32),
        2 => 0,
        3 => chance.word(),
        _ => 0x2000_0000,
    }
}

/// Entry flags that all mean "in use".
pub fn flag_in_use(chance: &mut Chance) -> u8 {
    chance.pick(&[0, 0, 0, 0, 2, 3, 0x80, 0xFF])
}

pub fn kind(chance: &mut Chance) -> u8 {
    if chance.below(4) < 3 {
        1
    } else {
        other_kind(chance)
    }
}

/// An allowed type, but no thread's.
pub fn other_kind(chance: &mut Chance) -> u8 {
    chance.pick(&[2, 3, 8, 13, 14, 21, 22, 28])
}

pub fn bad_kind(chance: &mut Chance) -> u8 {
    chance.pick(&[0, 15, 16, 18, 20, 29, 30, 0x81, 0xFF])
}

/// A few pointers that entries and events share, so that names are found.
pub fn pointers(chance: &mut Chance) -> Vec<u32> {
    let count = chance.between(1, 3);
    (0..count).map(|_| pointer(chance)).collect()
}

fn pointer(chance: &mut Chance) -> u32 {
    match chance.below(8) {
        0 => chance.word().max(1),
        1 => chance.pick(&[
            INIT_POINTER,
            ISR_POINTER,
            1,
            INIT_POINTER - 1,
            ISR_POINTER - 1,
        ]),
        _ => 0x2000_1000 + 0x100 * chance.below(4) as u32,
    }
}

pub fn event_id(chance: &mut Chance) -> u32 {
    match chance.below(4) {
        0 => chance.pick(&[1, 1024, 1025, u32::MAX, 0x0100_0000]),
        1 => chance.word().max(1),
        _ => chance.between(1, 120) as u32,
    }
}

/// Small numbers mostly, so that lines stay short.
pub fn information(chance: &mut Chance) -> u32 {
    match chance.below(6) {
        0 => chance.word(),
        1 => u32::MAX,
        2 => chance.below(1000) as u32,
        _ => chance.below(3) as u32,
    }
}
