//! Dumps to mend: one rule broken or several, with room for the copy on both sides of its length.

use super::chance::Chance;
use super::cut::far_buffer_end;
use super::damage::{damage, flip_use};
use super::draft::Draft;
use super::sketch::Sketch;
use super::sound::{sound, Measure};
use super::values;
use super::writes;
use super::Generator;
use crate::case::Case;
use crate::limits::{LARGEST_DUMP, SLOT_SIZE};

/// Breaks what one rule of mending looks at; near misses leave the dump sound.
type Harm = fn(&mut Chance, &mut Sketch);

/// Gaps come first: they may set a current and give ids, which others then spoil.
const HARMS: [(&str, Harm); 5] = [
    ("gaps", gaps),
    ("missing", missing),
    ("current", current),
    ("types", types),
    ("ids", ids),
];

pub fn one_harm(generator: &mut Generator) -> Case {
    let harm = generator.chance.pick(&HARMS);
    harmed(generator, &[harm])
}

/// Several rules at once show their order, and what each leaves to the next.
pub fn several_harms(generator: &mut Generator) -> Case {
    let harms = some_harms(&mut generator.chance);
    harmed(generator, &harms)
}

/// What is refused is not mended, whatever else could be.
pub fn harms_and_refusal(generator: &mut Generator) -> Case {
    let mut harms = some_harms(&mut generator.chance);
    harms.push(("refused", refused));
    harmed(generator, &harms)
}

/// All of them, or each as likely as not.
fn some_harms(chance: &mut Chance) -> Vec<(&'static str, Harm)> {
    let all = chance.one_in(2);
    let mut harms = HARMS.to_vec();
    harms.retain(|_| all || chance.one_in(2));
    harms
}

fn harmed(generator: &mut Generator, harms: &[(&str, Harm)]) -> Case {
    let chance = &mut generator.chance;
    let measure = Measure {
        entries: chance.below(5),
        slots: chance.between(1, 7),
    };
    let pointers = values::pointers(chance);
    let mut sketch = sound(chance, &measure, &pointers);
    lengthen(chance, &mut sketch);
    let mut title = "mend".to_string();
    for (name, harm) in harms {
        harm(chance, &mut sketch);
        title = format!("{} {}", title, name);
    }
    let mut draft = Draft::new(&title, sketch.bytes(), pointers);
    draft.check();
    draft.mend_exactly();
    draft.mend(chance);
    if chance.one_in(4) {
        writes::any_write(chance, &mut draft);
        draft.mend(chance);
    }
    draft.finish()
}

/// Now and then more bytes follow the slots than one slot has; they are no part of the copy.
fn lengthen(chance: &mut Chance, sketch: &mut Sketch) {
    if chance.one_in(6) {
        let count = chance.between(SLOT_SIZE, 3 * SLOT_SIZE);
        sketch.leftover = chance.bytes(count);
    }
}

/// Stops where a slot starts or within one, mostly a later one, before the first one or far before the last.
fn missing(chance: &mut Chance, sketch: &mut Sketch) {
    let slots = sketch.slots.len();
    let slot = chance.below(slots).max(chance.below(slots));
    let start = sketch.ring() + SLOT_SIZE * slot;
    let within = [1, 3, 4, 8, 11, 12, 16, 31];
    match chance.below(16) {
        0 => far_buffer_end(chance, sketch),
        1 => sketch.kept = sketch.ring(),
        2..=6 => sketch.kept = start,
        7 => sketch.kept = sketch.end() - 1,
        _ => sketch.kept = start + chance.pick(&within),
    }
}

/// Before the slots, behind them, off a slot, or at another slot.
fn current(chance: &mut Chance, sketch: &mut Sketch) {
    damage(chance, sketch, 10);
}

fn types(chance: &mut Chance, sketch: &mut Sketch) {
    for _ in 0..chance.between(1, 3) {
        damage(chance, sketch, 11);
    }
}

/// Some slots lose their id, used or not; now and then all of them.
fn ids(chance: &mut Chance, sketch: &mut Sketch) {
    let all = chance.one_in(10);
    let odds = chance.between(2, 4);
    for slot in &mut sketch.slots {
        if all || chance.one_in(odds) {
            slot[2] = 0;
        }
    }
}

/// Used and unused slots in any order, and often current at any of them.
fn gaps(chance: &mut Chance, sketch: &mut Sketch) {
    let odds = chance.between(2, 4);
    for slot in &mut sketch.slots {
        if chance.one_in(odds) {
            flip_use(chance, slot);
        }
    }
    if chance.one_in(2) {
        let slot = chance.below(sketch.slots.len());
        sketch.current = sketch.pointer(sketch.ring() + SLOT_SIZE * slot);
    }
}

/// Damages what checks 1 to 9 look at, or cuts the dump anywhere.
fn refused(chance: &mut Chance, sketch: &mut Sketch) {
    match chance.below(12) {
        0 => sketch.kept = chance.pick(&[0, 1, 47]),
        1 => too_long(sketch),
        2 => sketch.kept = chance.between(48, sketch.ring()),
        _ => {
            let number = chance.pick(&[3, 4, 5, 6, 7, 8, 9, 26]);
            damage(chance, sketch, number);
        }
    }
}

fn too_long(sketch: &mut Sketch) {
    let count = LARGEST_DUMP + 1 - sketch.end();
    sketch.leftover.resize(count, 0);
}
