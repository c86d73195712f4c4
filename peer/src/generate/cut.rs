//! Dumps that stop too soon: lengths on both sides of each end, and ends on both sides of the last that a dump can have.

use super::chance::Chance;
use super::draft::Draft;
use super::sketch::Sketch;
use super::sound::{sound, Measure};
use super::values;
use super::writes;
use super::Generator;
use crate::case::Case;
use crate::limits::{HEADER_SIZE, LARGEST_DUMP, SLOT_SIZE};

/// A cut dump and every kind of call.
pub fn cut_dump(generator: &mut Generator) -> Case {
    let chance = &mut generator.chance;
    let measure = Measure {
        entries: entries_before(chance),
        slots: chance.between(1, 4),
    };
    let pointers = values::pointers(chance);
    let mut sketch = sound(chance, &measure, &pointers);
    cut(chance, &mut sketch);
    let mut draft = Draft::new("cut", sketch.bytes(), pointers);
    draft.check();
    draft.mend(chance);
    draft.event(chance);
    draft.find_name(chance);
    draft.line(chance);
    draft.listing(chance, &mut generator.readings);
    writes::every_write(chance, &mut draft);
    draft.finish()
}

/// After four entries of most sizes the slots can end at just 65,536.
pub fn entries_before(chance: &mut Chance) -> usize {
    chance.pick(&[0, 1, 2, 3, 4, 4, 4, 4])
}

/// Cuts the dump, or moves an end far past it; near misses leave the dump sound.
pub fn cut(chance: &mut Chance, sketch: &mut Sketch) {
    match chance.below(7) {
        0 => far_registry_end(chance, sketch),
        1 | 2 => far_buffer_end(chance, sketch),
        _ => sketch.kept = cut_length(chance, sketch.ring(), sketch.end()),
    }
}

/// A length at, beside or between the ends of the header, the registry and the slots.
pub fn cut_length(chance: &mut Chance, ring: usize, end: usize) -> usize {
    let near = [
        HEADER_SIZE,
        ring - 1,
        ring - 1,
        ring,
        ring + 1,
        end - 1,
        end - 1,
        end,
        end + 1,
    ];
    match chance.below(12) {
        0 => chance.below(HEADER_SIZE),
        1 | 2 => chance.between(HEADER_SIZE, ring),
        3 | 4 => chance.between(ring, end),
        _ => chance.pick(&near),
    }
}

/// The slots follow the registry or stay where they were, which is refused later.
fn far_registry_end(chance: &mut Chance, sketch: &mut Sketch) {
    let entry = 16 + usize::from(sketch.name_size);
    let entries = far_count(chance, (LARGEST_DUMP - HEADER_SIZE) / entry);
    let end = HEADER_SIZE + entry * entries;
    sketch.registry_end = sketch.pointer(end);
    if chance.one_in(2) {
        sketch.buffer_start = sketch.registry_end;
        sketch.buffer_end = sketch.pointer(end + SLOT_SIZE);
    }
}

/// As if far more slots followed than the dump has.
pub fn far_buffer_end(chance: &mut Chance, sketch: &mut Sketch) {
    let ring = sketch.ring();
    let slots = far_count(chance, (LARGEST_DUMP - ring) / SLOT_SIZE);
    sketch.buffer_end = sketch.pointer(ring + SLOT_SIZE * slots);
}

/// As many as a dump has room for, one more, or any number below.
fn far_count(chance: &mut Chance, most: usize) -> usize {
    match chance.below(5) {
        0 => chance.below(most + 1),
        1 | 2 => most + 1,
        _ => most,
    }
}
