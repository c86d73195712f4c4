//! Cases that write: histories of a formatted buffer, and formatting with every refusal.

use super::chance::Chance;
use super::draft::Draft;
use super::names::name_to_register;
use super::sound;
use super::values;
use super::Generator;
use crate::call::{Call, Registration};
use crate::case::Case;
use crate::format::Plan;
use crate::header::Header;

/// One record, registration or removal, now and then one that is refused.
pub fn any_write(chance: &mut Chance, draft: &mut Draft) {
    match chance.below(4) {
        0 => remove(chance, draft),
        1 => register(chance, draft),
        _ => {
            let stamp = chance.word();
            record(chance, draft, stamp);
        }
    }
}

/// One record, one registration and one removal.
pub fn every_write(chance: &mut Chance, draft: &mut Draft) {
    let stamp = chance.word();
    record(chance, draft, stamp);
    register(chance, draft);
    remove(chance, draft);
}

pub fn record(chance: &mut Chance, draft: &mut Draft, stamp: u32) {
    let pointers = if draft.pointers.is_empty() {
        vec![1]
    } else {
        draft.pointers.clone()
    };
    let mut words = sound::event(chance, stamp, &pointers);
    match chance.below(16) {
        0 => words[0] = 0,
        1 | 3 => words[2] = 0,
        2 if chance.one_in(2) => {
            words[0] = 0;
            words[2] = 0;
        }
        _ => {}
    }
    draft.make(Call::Record(words));
}

fn register(chance: &mut Chance, draft: &mut Draft) {
    let size = Header::read(&padded(&draft.buffer)).map_or(8, |header| header.name_size);
    let kind = if chance.one_in(8) {
        values::bad_kind(chance)
    } else {
        values::kind(chance)
    };
    let pointer = draft.some_pointer(chance);
    let name = name_to_register(chance, usize::from(size.clamp(4, 64)));
    draft.make(registration(chance, kind, pointer, name));
}

pub fn registration(chance: &mut Chance, kind: u8, pointer: u32, name: Vec<u8>) -> Call {
    Call::Register(Registration {
        kind,
        pointer,
        parameters: [chance.word(), chance.below(3) as u32],
        reserved: [chance.byte(), chance.byte()],
        name,
    })
}

/// The front of a buffer, with zeros where it is too short for a header.
fn padded(buffer: &[u8]) -> Vec<u8> {
    let mut front: Vec<u8> = buffer.iter().copied().take(48).collect();
    front.resize(48, 0);
    front
}

fn remove(chance: &mut Chance, draft: &mut Draft) {
    let pointer = draft.some_pointer(chance);
    draft.make(Call::Remove { pointer });
}

/// A sound plan for formatting, and a buffer that has room for it.
pub fn plan_and_buffer(chance: &mut Chance, entries: usize, slots: usize) -> (Plan, Vec<u8>) {
    let name_size = values::name_size(chance);
    let needed = 48 + entries * (16 + usize::from(name_size)) + 32 * slots;
    let leftover = if chance.one_in(3) {
        chance.below(32)
    } else {
        0
    };
    let plan = Plan {
        order: values::order(chance),
        base: values::base(chance, needed),
        mask: values::mask(chance),
        name_size,
        entries,
    };
    let fill = chance.byte();
    (plan, vec![fill; needed + leftover])
}

/// Format, then writes at true times that go on, with registrations, removals and readings between.
pub fn history(generator: &mut Generator) -> Case {
    let chance = &mut generator.chance;
    let (entries, slots) = (chance.below(5), chance.between(1, 5));
    let (plan, buffer) = plan_and_buffer(chance, entries, slots);
    let mut draft = Draft::new("history", buffer, values::pointers(chance));
    draft.make(Call::Format(plan));
    let mut time = chance.long() >> 28;
    for _ in 0..chance.between(3, 10) {
        history_step(generator, &mut draft, plan.mask, &mut time);
    }
    draft.listing(&mut generator.chance, &mut generator.readings);
    if generator.chance.one_in(20) {
        draft.make(Call::Bytes);
    }
    draft.finish()
}

fn history_step(generator: &mut Generator, draft: &mut Draft, mask: u32, time: &mut u64) {
    let chance = &mut generator.chance;
    match chance.below(18) {
        0..=7 => {
            *time += true_gap(chance, mask);
            record(chance, draft, *time as u32);
        }
        8..=10 => register(chance, draft),
        11..=12 => remove(chance, draft),
        13 => draft.check(),
        14 => draft.find_name(chance),
        15 => draft.event(chance),
        16 => draft.mend(chance),
        _ => draft.listing(chance, &mut generator.readings),
    }
}

/// A registry that fills up, refuses, is emptied and serves again; the names of removed threads stay until then.
pub fn registry(generator: &mut Generator) -> Case {
    let chance = &mut generator.chance;
    let entries = chance.between(2, 6);
    let (plan, buffer) = plan_and_buffer(chance, entries, 2);
    // A few pointers come back while another entry still has them; many fill the registry.
    let count = chance.pick(&[2, 3, 6, 6]);
    let pointers = (0..count).map(|index| 0x2000_1000 + 0x80 * index).collect();
    let mut draft = Draft::new("registry", buffer, pointers);
    draft.make(Call::Format(plan));
    for _ in 0..chance.between(6, 14) {
        match chance.below(12) {
            0..=5 => register(chance, &mut draft),
            6..=9 => remove(chance, &mut draft),
            _ => draft.find_name(chance),
        }
    }
    for stamp in 0..2 {
        record(chance, &mut draft, stamp);
    }
    draft.event(chance);
    draft.listing(chance, &mut generator.readings);
    draft.finish()
}

/// A gap on either side of the timer range, or none.
fn true_gap(chance: &mut Chance, mask: u32) -> u64 {
    let range = u64::from(mask) + 1;
    match chance.below(8) {
        0 => 0,
        1 => range - 1,
        2 => range,
        3 => range + 1,
        4 => 3 * range + chance.long_below(range),
        5 => chance.long_below(range),
        _ => chance.long_below(500),
    }
}

/// Formatting on both sides of each of its limits, and the first write after it.
pub fn formatting(generator: &mut Generator) -> Case {
    let chance = &mut generator.chance;
    let (entries, slots) = (chance.below(5), chance.between(1, 3));
    let (mut plan, mut buffer) = plan_and_buffer(chance, entries, slots);
    let entry = 16 + usize::from(plan.name_size);
    let fill = chance.byte();
    match chance.below(15) {
        0 | 1 => plan.mask = values::bad_mask(chance, plan.mask),
        2 | 3 => plan.name_size = values::bad_name_size(chance, plan.name_size),
        4 | 5 | 12 => plan.entries = huge_count(chance, entry),
        6 => buffer.resize(48 + entry * plan.entries + 32, fill),
        7 | 13 => buffer.resize(48 + entry * plan.entries + 31, fill),
        8 => buffer.truncate(chance.pick(&[0, 1, 47, 48, 79, 80])),
        9 => buffer.resize(65_537 - chance.below(2), fill),
        10 => plan.entries = buffer.len() / entry,
        11 => spoil_all(chance, &mut plan, &mut buffer),
        _ => {}
    }
    let mut draft = Draft::new("format", buffer, values::pointers(chance));
    draft.make(Call::Format(plan));
    draft.check();
    any_write(chance, &mut draft);
    draft.listing(chance, &mut generator.readings);
    if chance.one_in(8) {
        draft.make(Call::Bytes);
    }
    draft.finish()
}

/// Several refusals at once show the order of the checks.
fn spoil_all(chance: &mut Chance, plan: &mut Plan, buffer: &mut Vec<u8>) {
    plan.mask = if chance.one_in(2) { 0 } else { plan.mask };
    plan.name_size = if chance.one_in(2) { 66 } else { plan.name_size };
    plan.entries = 10_000;
    if chance.one_in(6) {
        buffer.resize(65_537, 0x5A);
    }
}

/// Counts whose product with the entry size wraps, or nearly does.
fn huge_count(chance: &mut Chance, entry: usize) -> usize {
    let lowest_bit = entry.trailing_zeros();
    let wraps_to_zero = 1usize << (64 - lowest_bit);
    let wraps_in_32_bits = 1usize << (32 - lowest_bit);
    let known = [
        usize::MAX,
        usize::MAX / entry,
        usize::MAX / entry + 1,
        usize::MAX / entry + 2,
        wraps_to_zero,
        wraps_to_zero + 1,
        wraps_in_32_bits,
        wraps_in_32_bits + 1,
        1 << 32,
        65_536,
        65_536 / entry,
        1 << 63,
    ];
    chance.pick(&known)
}
