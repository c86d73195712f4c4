//! The calls for C and their structs, as include/lepsaino.h declares them.

#[repr(C)]
#[derive(Clone, Copy, Debug, Default, PartialEq, Eq)]
pub struct Answer {
    pub refusal: u32,
    pub place: usize,
    pub value: usize,
}

#[repr(C)]
#[derive(Clone, Copy, Debug, Default, PartialEq, Eq)]
pub struct Checked {
    pub refusal: u32,
    pub place: usize,
    pub big: u32,
    pub id: u32,
    pub mask: u32,
    pub base: u32,
    pub registry_start: u32,
    pub name_size: u16,
    pub registry_end: u32,
    pub buffer_start: u32,
    pub buffer_end: u32,
    pub current: u32,
    pub events: usize,
}

/// The eight words of a slot, as in the buffer.
#[repr(C)]
#[derive(Clone, Copy, Debug, Default, PartialEq, Eq)]
pub struct Slot {
    pub pointer: u32,
    pub field: u32,
    pub id: u32,
    pub stamp: u32,
    pub first: u32,
    pub second: u32,
    pub third: u32,
    pub fourth: u32,
}

pub const INIT: u32 = 1;
pub const ISR: u32 = 2;
pub const THREAD: u32 = 3;

pub const NAMELESS: u32 = 0;
pub const LIVE: u32 = 1;
pub const GONE: u32 = 2;
pub const FILED: u32 = 3;

#[repr(C)]
#[derive(Clone, Copy, Debug, Default, PartialEq, Eq)]
pub struct Event {
    pub refusal: u32,
    pub place: usize,
    pub slot: Slot,
    pub ticks: u64,
    pub context: u32,
    pub name_kind: u32,
    pub name_at: usize,
    pub name_length: usize,
    pub event_kind: u32,
    pub event_at: usize,
    pub event_length: usize,
}

#[repr(C)]
#[derive(Clone, Copy, Debug, Default, PartialEq, Eq)]
pub struct Name {
    pub refusal: u32,
    pub place: usize,
    pub kind: u32,
    pub at: usize,
    pub length: usize,
}

/// The copy's length, and what was mended, in six counts.
#[repr(C)]
#[derive(Clone, Copy, Debug, Default, PartialEq, Eq)]
pub struct Mended {
    pub refusal: u32,
    pub place: usize,
    pub length: usize,
    pub missing: usize,
    pub current: usize,
    pub types: usize,
    pub ids: usize,
    pub packed: usize,
    pub moved: usize,
}

/// What a listing goes by: the clock rate in Hz, the unit number and the first serial.
#[repr(C)]
#[derive(Clone, Copy, Debug, Default, PartialEq, Eq)]
pub struct Reading {
    pub rate: u32,
    pub unit: u32,
    pub serial: u64,
}

/// What formatting is given; the byte order is 0 for little-endian, any other number for big.
#[repr(C)]
#[derive(Clone, Copy, Debug, Default, PartialEq, Eq)]
pub struct Format {
    pub big: u32,
    pub base: u32,
    pub mask: u32,
    pub name_size: u16,
    pub entries: usize,
}

/// What registering is given, but for the name; the reserved bytes count for a thread (type 1) alone.
#[repr(C)]
#[derive(Clone, Copy, Debug, Default, PartialEq, Eq)]
pub struct Object {
    pub object_type: u8,
    pub pointer: u32,
    pub parameter_one: u32,
    pub parameter_two: u32,
    pub reserved_one: u8,
    pub reserved_two: u8,
}

/// The state of a check in pieces, which is only handed on.
#[repr(C)]
#[derive(Clone, Copy, Debug, PartialEq, Eq)]
pub struct Pieces {
    pub header: [u8; 48],
    pub entries: usize,
    pub entry_size: usize,
    pub start: usize,
    pub slots: usize,
    pub slot_size: usize,
    pub current: usize,
    pub front: [u8; 12],
    pub came: usize,
    pub entries_passed: usize,
    pub bad_type: usize,
    pub slots_passed: usize,
    pub unused: usize,
    pub behind: usize,
    pub no_id: usize,
    pub total: usize,
}

extern "C" {
    pub fn lepsaino_check(dump: *const u8, dump_length: usize) -> Checked;
    pub fn lepsaino_begin() -> Pieces;
    pub fn lepsaino_feed(state: Pieces, piece: *const u8, piece_length: usize) -> Pieces;
    pub fn lepsaino_finish(state: Pieces) -> Checked;
    pub fn lepsaino_event(dump: *const u8, dump_length: usize, position: usize) -> Event;
    pub fn lepsaino_find_name(dump: *const u8, dump_length: usize, pointer: u32) -> Name;
    pub fn lepsaino_line(
        dump: *const u8,
        dump_length: usize,
        reading: Reading,
        position: usize,
        out: *mut u8,
        out_length: usize,
    ) -> Answer;
    pub fn lepsaino_listing(
        dump: *const u8,
        dump_length: usize,
        reading: Reading,
        out: *mut u8,
        out_length: usize,
    ) -> Answer;
    pub fn lepsaino_event_with_names(
        dump: *const u8,
        dump_length: usize,
        names: *const u8,
        names_length: usize,
        position: usize,
    ) -> Event;
    pub fn lepsaino_find_name_with_names(
        dump: *const u8,
        dump_length: usize,
        names: *const u8,
        names_length: usize,
        pointer: u32,
    ) -> Name;
    pub fn lepsaino_line_with_names(
        dump: *const u8,
        dump_length: usize,
        reading: Reading,
        position: usize,
        names: *const u8,
        names_length: usize,
        out: *mut u8,
        out_length: usize,
    ) -> Answer;
    pub fn lepsaino_listing_with_names(
        dump: *const u8,
        dump_length: usize,
        reading: Reading,
        names: *const u8,
        names_length: usize,
        out: *mut u8,
        out_length: usize,
    ) -> Answer;
    pub fn lepsaino_write_name(
        names: *mut u8,
        names_length: usize,
        offset: usize,
        thread: u32,
        number: u32,
        name: *const u8,
        name_length: usize,
    ) -> Answer;
    pub fn lepsaino_number(out: *mut u8, out_length: usize, number: u64) -> usize;
    pub fn lepsaino_mend(
        dump: *const u8,
        dump_length: usize,
        copy: *mut u8,
        copy_length: usize,
    ) -> Mended;
    pub fn lepsaino_format(buffer: *mut u8, buffer_length: usize, format: Format) -> Answer;
    pub fn lepsaino_record(buffer: *mut u8, buffer_length: usize, slot: Slot) -> Answer;
    pub fn lepsaino_register(
        buffer: *mut u8,
        buffer_length: usize,
        object: Object,
        name: *const u8,
        name_length: usize,
    ) -> Answer;
    pub fn lepsaino_remove(buffer: *mut u8, buffer_length: usize, pointer: u32) -> Answer;
}
