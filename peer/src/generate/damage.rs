//! Damages to a sketch: one function for each refusal of a dump, with values on both sides of its limit.

use super::chance::Chance;
use super::cut::cut;
use super::sketch::Sketch;
use super::values;
use crate::limits::{FREE, ID};

/// Damages what the refusal of this number (3 to 13, or 26) looks at; near misses leave the dump sound.
pub fn damage(chance: &mut Chance, sketch: &mut Sketch, number: u32) {
    match number {
        3 => sketch.id = wrong_id(chance),
        4 => sketch.mask = values::bad_mask(chance, sketch.mask),
        5 => sketch.name_size = wrong_name_size(chance, sketch.name_size),
        6 => registry_start(chance, sketch),
        7 => registry_end(chance, sketch),
        8 => buffer_start(chance, sketch),
        9 => buffer_end(chance, sketch),
        10 => current(chance, sketch),
        11 => entry_kind(chance, sketch),
        12 => slot_use(chance, sketch),
        13 => slot_id(chance, sketch),
        _ => cut(chance, sketch),
    }
}

fn wrong_id(chance: &mut Chance) -> u32 {
    let bit = ID ^ (1 << chance.below(32));
    chance.pick(&[
        0,
        bit,
        bit,
        !ID,
        ID.swap_bytes(),
        0x5442_5854,
        0x5854_4254,
        ID + 1,
    ])
}

/// Another allowed size is a damage too: it seldom divides the registry.
fn wrong_name_size(chance: &mut Chance, name_size: u16) -> u16 {
    if chance.one_in(4) {
        values::name_size(chance)
    } else {
        values::bad_name_size(chance, name_size)
    }
}

/// Far steps, which show where an offset is taken without wrapping.
const STEPS: [u32; 8] = [1, 4, 16, 32, 48, 0x8000_0000, 0x0001_0000, 0x0100_0000];

fn stepped(chance: &mut Chance, pointer: u32) -> u32 {
    let step = chance.pick(&STEPS);
    if chance.one_in(2) {
        pointer.wrapping_add(step)
    } else {
        pointer.wrapping_sub(step)
    }
}

fn registry_start(chance: &mut Chance, sketch: &mut Sketch) {
    sketch.registry_start = match chance.below(5) {
        0 => 48,
        1 => sketch.base,
        2 => sketch.registry_end,
        _ => stepped(chance, sketch.registry_start),
    };
}

fn registry_end(chance: &mut Chance, sketch: &mut Sketch) {
    let entry = 16 + usize::from(sketch.name_size);
    let ring = sketch.ring();
    let length = sketch.length();
    // Another damage may have cut the dump within its header.
    let past = 48 + (length.saturating_sub(48) / entry + 1) * entry;
    let offsets = [
        47,
        48,
        48 - 16,
        48 + entry,
        ring + 1,
        ring - 1,
        ring + 16,
        ring + entry,
    ];
    let far = [
        0,
        length,
        length + 1,
        past - entry,
        past,
        65_536,
        65_536 + ring,
    ];
    sketch.registry_end = match chance.below(5) {
        0 => stepped(chance, sketch.registry_end),
        1 => sketch.pointer(48usize.wrapping_sub(entry)),
        2 => sketch.pointer(chance.pick(&far)),
        _ => sketch.pointer(chance.pick(&offsets)),
    };
    if chance.one_in(2) {
        sketch.buffer_start = sketch.registry_end;
    }
}

fn buffer_start(chance: &mut Chance, sketch: &mut Sketch) {
    let entry = 16 + u32::from(sketch.name_size);
    sketch.buffer_start = match chance.below(5) {
        0 => sketch.buffer_start.wrapping_add(entry),
        1 => sketch.buffer_start.wrapping_sub(entry),
        2 => sketch.registry_start,
        3 => sketch.buffer_end,
        _ => stepped(chance, sketch.buffer_start),
    };
}

fn buffer_end(chance: &mut Chance, sketch: &mut Sketch) {
    let ring = sketch.ring();
    let length = sketch.length();
    let end = sketch.end();
    let offsets = [
        ring,
        ring - 32,
        ring - 1,
        ring + 1,
        ring + 31,
        end - 1,
        end - 32,
        end + 1,
    ];
    let far = [
        0,
        length,
        length + 1,
        end + 32,
        end + 64,
        65_536,
        65_536 + end,
    ];
    sketch.buffer_end = match chance.below(4) {
        0 => stepped(chance, sketch.buffer_end),
        1 => sketch.pointer(chance.pick(&far)),
        _ => sketch.pointer(chance.pick(&offsets)),
    };
}

fn current(chance: &mut Chance, sketch: &mut Sketch) {
    let ring = sketch.ring();
    let end = sketch.end();
    let offsets = [
        ring - 32,
        ring - 1,
        ring + 1,
        ring + 16,
        end,
        end - 1,
        end + 32,
        0,
        48,
    ];
    sketch.current = match chance.below(4) {
        0 => stepped(chance, sketch.current),
        1 => sketch.pointer(ring + 32 * chance.below(sketch.slots.len())),
        _ => sketch.pointer(chance.pick(&offsets)),
    };
}

fn entry_kind(chance: &mut Chance, sketch: &mut Sketch) {
    let index = chance.below(sketch.entries.len());
    if let Some(entry) = sketch.entries.get_mut(index) {
        let edge = chance.pick(&[14, 21, 28]);
        entry.kind = if chance.one_in(6) {
            edge
        } else {
            values::bad_kind(chance)
        };
        entry.flag = if chance.one_in(6) {
            FREE
        } else {
            values::flag_in_use(chance)
        };
    }
}

fn slot_use(chance: &mut Chance, sketch: &mut Sketch) {
    let index = chance.below(sketch.slots.len());
    flip_use(chance, &mut sketch.slots[index]);
}

/// Makes an unused slot used, or a used one unused, whose other words stay.
pub fn flip_use(chance: &mut Chance, slot: &mut [u32; 8]) {
    if slot[0] == 0 {
        slot[0] = chance.pick(&[1, 0x0100_0000, u32::MAX]);
        slot[2] = slot[2].max(1);
    } else {
        slot[0] = 0;
    }
}

fn slot_id(chance: &mut Chance, sketch: &mut Sketch) {
    let index = chance.below(sketch.slots.len());
    sketch.slots[index][2] = 0;
}
