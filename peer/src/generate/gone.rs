//! Registries in which a pointer has several entries: threads in use, threads that are gone, and other objects, laid out in any order or left by calls.

use super::chance::Chance;
use super::draft::Draft;
use super::names::name;
use super::sketch::EntrySketch;
use super::sound::{fresh_entry, sound, Measure};
use super::values;
use super::writes::{plan_and_buffer, record, registration};
use super::Generator;
use crate::call::Call;
use crate::case::Case;
use crate::limits::{FREE, INIT_POINTER, ISR_POINTER, THREAD};

/// Events of one or two pointers, and every call that gives a name.
pub fn gone_threads(generator: &mut Generator) -> Case {
    let chance = &mut generator.chance;
    let measure = Measure {
        entries: chance.between(2, 5),
        slots: chance.between(1, 4),
    };
    let pointers = one_or_two(chance);
    let mut sketch = sound(chance, &measure, &pointers);
    for entry in &mut sketch.entries {
        set_state(chance, entry);
    }
    let mut draft = Draft::new("gone", sketch.bytes(), pointers);
    draft.find_name(chance);
    for _ in 0..2 {
        draft.event(chance);
        draft.line(chance);
    }
    draft.listing(chance, &mut generator.readings);
    draft.finish()
}

/// Now and then a thread has the pointer that marks another context, whose events it does not name.
fn one_or_two(chance: &mut Chance) -> Vec<u32> {
    let mut pointers = values::pointers(chance);
    pointers.truncate(2);
    if chance.one_in(4) {
        pointers[0] = chance.pick(&[INIT_POINTER, ISR_POINTER]);
    }
    pointers
}

/// Mostly a thread that is gone or one in use, or another object that was removed or is in use; or nothing yet.
fn set_state(chance: &mut Chance, entry: &mut EntrySketch) {
    if chance.one_in(8) {
        *entry = fresh_entry(entry.name_field.len());
        return;
    }
    let in_use = values::flag_in_use(chance);
    let other = values::other_kind(chance);
    let never = values::bad_kind(chance);
    let (flag, kind) = match chance.below(9) {
        0..=3 => (FREE, THREAD),
        4 | 5 => (in_use, THREAD),
        6 | 7 => (FREE, chance.pick(&[other, never])),
        _ => (in_use, other),
    };
    entry.flag = flag;
    entry.kind = kind;
}

const RETURNING: u32 = 0x2000_1000;
const OTHER: u32 = 0x2000_1080;

/// Registrations and removals after which the returning thread is live, gone, live and gone, gone twice, and gone once more.
const STEPS: [(bool, u32); 7] = [
    (true, OTHER),
    (true, RETURNING),
    (false, RETURNING),
    (false, OTHER),
    (true, RETURNING),
    (false, RETURNING),
    (true, OTHER),
];

/// A thread comes back in a lower entry while its old one still has the pointer.
pub fn comes_back(generator: &mut Generator) -> Case {
    let chance = &mut generator.chance;
    let entries = chance.between(2, 3);
    let (plan, buffer) = plan_and_buffer(chance, entries, 2);
    let mut draft = Draft::new("comes back", buffer, vec![RETURNING]);
    draft.make(Call::Format(plan));
    for stamp in 0..2 {
        record(chance, &mut draft, stamp);
    }
    for (registers, pointer) in STEPS {
        let call = if registers {
            let length = chance.below(usize::from(plan.name_size) + 1);
            let name = name(chance, length);
            registration(chance, THREAD, pointer, name)
        } else {
            Call::Remove { pointer }
        };
        draft.make(call);
        look(chance, &mut draft);
    }
    draft.listing(chance, &mut generator.readings);
    draft.finish()
}

/// Often a call that gives the returning thread's name.
fn look(chance: &mut Chance, draft: &mut Draft) {
    match chance.below(6) {
        0 | 1 => {
            draft.make(Call::FindName { pointer: RETURNING });
        }
        2 => draft.event(chance),
        3 => draft.line(chance),
        _ => {}
    }
}
