//! A registry of two entries, each in every state that the search for a name tells apart.

use super::draft::Draft;
use crate::call::Call;
use crate::case::Case;
use crate::format::{format, Plan};
use crate::order::ByteOrder;
use crate::reading::Reading;
use crate::record::record;

const PLAN: Plan = Plan {
    order: ByteOrder::Big,
    base: 0x2000_0000,
    mask: 0xFFFF,
    name_size: 4,
    entries: 2,
};

/// The entries of 20 bytes end at 88, four slots at 216.
const ENTRIES: [usize; 2] = [48, 68];
const END: usize = 216;
const POINTER: u32 = 0x2000_1000;

/// What an entry is called here, its flag, its type and its pointer.
type State = (&'static str, u8, u8, u32);

const STATES: [State; 6] = [
    ("live", 0, 1, POINTER),
    ("gone", 1, 1, POINTER),
    ("other", 0, 2, POINTER),
    ("other gone", 1, 2, POINTER),
    ("gone elsewhere", 1, 1, POINTER + 4),
    ("fresh", 1, 0, 0),
];

/// A thread's event, those of isr and init with its pointer as their field, and one of isr with the pointer of a fresh entry.
const EVENTS: [[u32; 8]; 4] = [
    [POINTER, 16, 5, 0, 1, 2, 3, 4],
    [0xFFFF_FFFF, POINTER, 6, 1, 0, 0, 0, 0],
    [0xF0F0_F0F0, POINTER, 7, 2, 0, 0, 0, 0],
    [0xFFFF_FFFF, 0, 8, 3, 0, 0, 0, 0],
];

pub fn gone_cases() -> Vec<Case> {
    let mut cases = Vec::new();
    for first in STATES {
        for second in STATES {
            cases.push(case([first, second]));
        }
    }
    cases
}

fn case(states: [State; 2]) -> Case {
    let [first, second] = states.map(|(name, ..)| name);
    let title = format!("names, {}, {}", first, second);
    let mut draft = Draft::new(&title, dump(states), Vec::new());
    draft.make(Call::FindName { pointer: POINTER });
    for position in 0..EVENTS.len() {
        draft.make(Call::Event { position });
    }
    draft.make(Call::Line {
        reading: Reading::new(1_000_000, 0, 0),
        position: 1,
        room: 200,
    });
    draft.finish()
}

fn dump(states: [State; 2]) -> Vec<u8> {
    let mut buffer = vec![0; END];
    format(&mut buffer, &PLAN).expect("the plan is sound");
    for (index, (_, flag, kind, pointer)) in states.into_iter().enumerate() {
        let entry = &mut buffer[ENTRIES[index]..][..20];
        entry[0] = flag;
        entry[1] = kind;
        PLAN.order.put_word(entry, 4, pointer);
        if pointer != 0 {
            entry[16..19].copy_from_slice([b"one", b"two"][index]);
        }
    }
    for words in &EVENTS {
        record(&mut buffer, words).expect("the event is sound");
    }
    buffer
}
