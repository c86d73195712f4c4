//! The peer's arguments as the structs for C.

use lepsaino::{Format, Object, Reading, Slot};
use peer::call::Registration;
use peer::generate::chance::Chance;
use peer::{ByteOrder, Named, Plan};

pub fn reading(reading: &peer::Reading) -> Reading {
    Reading {
        rate: reading.rate,
        unit: reading.unit,
        serial: reading.serial,
    }
}

/// Any number but 0 means big-endian.
pub fn format(chance: &mut Chance, plan: &Plan) -> Format {
    let big = match plan.order {
        ByteOrder::Little => 0,
        ByteOrder::Big => chance.pick(&[1, 1, 2, 256, 1 << 31, u32::MAX]),
    };
    Format {
        big,
        base: plan.base,
        mask: plan.mask,
        name_size: plan.name_size,
        entries: plan.entries,
    }
}

/// Any number but 0 means a thread.
pub fn thread(chance: &mut Chance, named: Named) -> u32 {
    match named {
        Named::Event => 0,
        Named::Thread => chance.pick(&[1, 1, 2, 256, 1 << 31, u32::MAX]),
    }
}

pub fn slot(words: &[u32; 8]) -> Slot {
    let [pointer, field, id, stamp, first, second, third, fourth] = *words;
    Slot {
        pointer,
        field,
        id,
        stamp,
        first,
        second,
        third,
        fourth,
    }
}

pub fn words(slot: &Slot) -> [u32; 8] {
    [
        slot.pointer,
        slot.field,
        slot.id,
        slot.stamp,
        slot.first,
        slot.second,
        slot.third,
        slot.fourth,
    ]
}

pub fn object(registration: &Registration) -> Object {
    Object {
        object_type: registration.kind,
        pointer: registration.pointer,
        parameter_one: registration.parameters[0],
        parameter_two: registration.parameters[1],
        reserved_one: registration.reserved[0],
        reserved_two: registration.reserved[1],
    }
}
