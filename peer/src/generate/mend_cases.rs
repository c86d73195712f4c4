//! Small dumps that break each rule of mending: every current in each kind of ring, cuts, gaps, types, ids and rooms.

use super::draft::Draft;
use crate::call::Call;
use crate::case::Case;
use crate::format::{format, Plan};
use crate::header::CURRENT_AT;
use crate::order::ByteOrder;
use crate::register::{register, Object};

/// Two entries of 20 bytes end at 88, three slots at 184; the end pointer is 0.
const PLAN: Plan = Plan {
    order: ByteOrder::Big,
    base: 0xFFFF_FF48,
    mask: 0xFFFF,
    name_size: 4,
    entries: 2,
};
const ENTRIES: [usize; 2] = [48, 68];
const RING: usize = 88;
const END: usize = 184;

const FULL: [bool; 3] = [true; 3];

pub fn mend_cases() -> Vec<Case> {
    [currents(), cuts(), gaps(), types(), ids(), vec![rooms()]].concat()
}

/// A dump with these slots used, and current at the offset; every byte of a used slot is 17 or a multiple.
fn dump(order: ByteOrder, used: [bool; 3], current: u32) -> Vec<u8> {
    let mut buffer = vec![0; END];
    let plan = Plan { order, ..PLAN };
    format(&mut buffer, &plan).expect("the plan is sound");
    let thread = Object {
        kind: 1,
        pointer: 0x1111_1111,
        parameters: [0, 0],
        reserved: [16, 0],
        name: b"pump",
    };
    register(&mut buffer, &thread).expect("an entry is free");
    for (index, slot) in buffer[RING..].chunks_exact_mut(32).enumerate() {
        if used[index] {
            slot.fill(0x11 * (index as u8 + 1));
        }
    }
    order.put_word(&mut buffer, CURRENT_AT, plan.base.wrapping_add(current));
    buffer
}

/// Room enough, and one byte too little.
fn case(title: &str, buffer: &[u8]) -> Case {
    with_rooms(title, buffer, &[END, END - 1])
}

fn with_rooms(title: &str, buffer: &[u8], rooms: &[usize]) -> Case {
    let mut draft = Draft::new(title, buffer.to_vec(), Vec::new());
    draft.make(Call::Check);
    for &room in rooms {
        draft.make(Call::Mend { room: room as u32 });
    }
    draft.finish()
}

/// At each slot, before them, off one and behind them, in a full, a part-full and an empty ring.
fn currents() -> Vec<Case> {
    let mut cases = Vec::new();
    let rings = [
        ("full", FULL),
        ("part-full", [true, true, false]),
        ("empty", [false; 3]),
    ];
    for (state, used) in rings {
        for current in [88, 120, 152, 0, 56, 87, 89, 104, 183, 184, 216, 1 << 31] {
            let title = format!("mend current {}, {}", current, state);
            cases.push(case(&title, &dump(ByteOrder::Big, used, current)));
        }
    }
    cases
}

/// At and beside the start and the end of each slot; the ring is full, current at its second slot.
fn cuts() -> Vec<Case> {
    let whole = dump(ByteOrder::Little, FULL, 120);
    [87, 88, 89, 119, 120, 121, 151, 152, 153, 183, 184]
        .iter()
        .map(|&length| case(&format!("mend cut {}", length), &whole[..length]))
        .collect()
}

/// Each set of used slots, with current at each slot; an unused slot keeps its other words.
fn gaps() -> Vec<Case> {
    let mut cases = Vec::new();
    for set in 0..8 {
        let used = [0, 1, 2].map(|slot| set >> slot & 1 == 1);
        for current in [88, 120, 152] {
            let mut buffer = dump(ByteOrder::Little, FULL, current);
            for slot in 0..3 {
                if !used[slot] {
                    buffer[RING + 32 * slot..][..4].fill(0);
                }
            }
            let title = format!("mend gaps {} {}", set, current);
            cases.push(case(&title, &buffer));
        }
    }
    cases
}

/// The flag and the type of the first entry, or of both.
fn types() -> Vec<Case> {
    let first = [(0, 0), (0, 14), (0, 15), (0, 20), (0, 21), (0, 28), (0, 29)];
    let both = [(1, 0), (2, 0), (2, 14), (0xFF, 0xFF)];
    let first = first.iter().map(|&pair| (pair, &ENTRIES[..1]));
    let both = both.iter().map(|&pair| (pair, &ENTRIES[..]));
    first
        .chain(both)
        .map(|((flag, kind), entries)| {
            let mut buffer = dump(ByteOrder::Big, FULL, 88);
            for &entry in entries {
                buffer[entry..entry + 2].copy_from_slice(&[flag, kind]);
            }
            case(&format!("mend type {} {}", flag, kind), &buffer)
        })
        .collect()
}

/// Each set of slots without id, in a full ring that starts at its second slot, whole and with a byte missing.
fn ids() -> Vec<Case> {
    let mut cases = Vec::new();
    for set in 1..8 {
        let mut buffer = dump(ByteOrder::Little, FULL, 120);
        for slot in (0..3).filter(|slot| set >> slot & 1 == 1) {
            buffer[RING + 32 * slot + 8..][..4].fill(0);
        }
        cases.push(case(&format!("mend ids {}", set), &buffer));
        let cut = format!("mend ids {}, cut", set);
        cases.push(case(&cut, &buffer[..END - 1]));
    }
    cases
}

/// A sound dump with bytes past its end, into rooms of every kind.
fn rooms() -> Case {
    let mut buffer = dump(ByteOrder::Big, FULL, 152);
    buffer.extend_from_slice(&[0xEE; 40]);
    let rooms = [0, 1, 47, 48, 87, 88, 183, 184, 185, 224, 65_536, 65_900];
    with_rooms("mend rooms", &buffer, &rooms)
}
