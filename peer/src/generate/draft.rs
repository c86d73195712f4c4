//! A case in the making: each call is made on the buffer and the name file at once, so that the next can fit their state.

use super::chance::Chance;
use super::readings::{self, Readings};
use crate::answers::{answer, Reply};
use crate::call::Call;
use crate::case::Case;
use crate::check::check;
use crate::layout::Layout;
use crate::limits::{INIT_POINTER, ISR_POINTER};
use crate::line::line_text;
use crate::listing::listing_text;
use crate::reading::Reading;
use crate::registry::entries;

pub struct Draft {
    title: String,
    start: Vec<u8>,
    pub buffer: Vec<u8>,
    names_at_start: Vec<u8>,
    pub names: Vec<u8>,
    /// Pointers that entries and events of this case share.
    pub pointers: Vec<u32>,
    calls: Vec<Call>,
}

/// A listing with names may be longer.
const LARGEST_ROOM: u32 = 1_599_000;
const LARGEST_ROOM_FOR_COPY: u32 = 65_900;

impl Draft {
    /// A case without a name file has an empty one.
    pub fn new(title: &str, buffer: Vec<u8>, pointers: Vec<u32>) -> Draft {
        Draft::with_names(title, buffer, pointers, Vec::new())
    }

    pub fn with_names(title: &str, buffer: Vec<u8>, pointers: Vec<u32>, names: Vec<u8>) -> Draft {
        Draft {
            title: title.to_string(),
            start: buffer.clone(),
            buffer,
            names_at_start: names.clone(),
            names,
            pointers,
            calls: Vec::new(),
        }
    }

    pub fn finish(self) -> Case {
        Case::new(self.title, &self.start, &self.names_at_start, self.calls)
    }

    pub fn make(&mut self, call: Call) -> Reply {
        let reply = answer(&mut self.buffer, &mut self.names, &call);
        self.calls.push(call);
        reply
    }

    /// The number of events, or 0 where the dump is refused.
    pub fn events(&self) -> usize {
        check(&self.buffer).map_or(0, |summary| summary.events)
    }

    pub fn check(&mut self) {
        self.make(Call::Check);
    }

    pub fn event(&mut self, chance: &mut Chance) {
        let position = position(chance, self.events());
        self.make(Call::Event { position });
    }

    /// Often the name of a free entry's thread.
    pub fn find_name(&mut self, chance: &mut Chance) {
        let free = self.free_pointers();
        let pointer = if !free.is_empty() && chance.one_in(3) {
            chance.pick(&free)
        } else {
            self.some_pointer(chance)
        };
        self.make(Call::FindName { pointer });
    }

    /// The pointers of the free entries, or none where the dump is refused.
    fn free_pointers(&self) -> Vec<u32> {
        let layout = match Layout::of(&self.buffer) {
            Ok(layout) => layout,
            Err(_) => return Vec::new(),
        };
        entries(&self.buffer, &layout)
            .filter(|entry| !entry.in_use())
            .map(|entry| entry.pointer())
            .collect()
    }

    /// One of the shared pointers, or one that is often none of them.
    pub fn some_pointer(&self, chance: &mut Chance) -> u32 {
        if self.pointers.is_empty() || chance.one_in(5) {
            chance.pick(&[0, 1, INIT_POINTER, ISR_POINTER, 0x2000_1000, 0x0010_0020])
        } else {
            chance.pick(&self.pointers)
        }
    }

    pub fn line(&mut self, chance: &mut Chance) {
        let events = self.events();
        let reading = readings::any(chance, events);
        let position = position(chance, events);
        let text = line_text(&self.buffer, None, &reading, position);
        let needed = text.map_or(0, |text| text.len());
        self.make(Call::Line {
            reading,
            position,
            room: room(chance, needed),
        });
    }

    pub fn listing(&mut self, chance: &mut Chance, readings: &mut Readings) {
        let events = self.events();
        let reading = readings.mostly_accepted(chance, events);
        let room = room(chance, self.listing_length(&reading));
        self.make(Call::Listing { reading, room });
    }

    /// The length of the whole listing, or 0 where it is refused.
    pub fn listing_length(&self, reading: &Reading) -> usize {
        listing_text(&self.buffer, None, reading).map_or(0, |text| text.len())
    }

    pub fn mend(&mut self, chance: &mut Chance) {
        let room = room_for_copy(chance, self.copy_length());
        self.make(Call::Mend { room });
    }

    /// Mends with just enough room.
    pub fn mend_exactly(&mut self) {
        let room = self.copy_length();
        self.make(Call::Mend { room });
    }

    /// The length of a mended copy; the buffer's own where the dump is refused, so that a change to it can be accepted.
    fn copy_length(&self) -> u32 {
        let length = Layout::of_cut(&self.buffer).map_or(self.buffer.len(), |layout| layout.end());
        LARGEST_ROOM_FOR_COPY.min(length as u32)
    }
}

pub fn position(chance: &mut Chance, events: usize) -> usize {
    let beyond = [events, events + 1, usize::MAX, 1 << 32, usize::MAX / 32 + 1];
    match chance.below(6) {
        0 => chance.pick(&beyond),
        1 => events.saturating_sub(1),
        2 => 0,
        _ => chance.below(events),
    }
}

/// Room for a text of the length: exact, too small, none, or plenty.
pub fn room(chance: &mut Chance, needed: usize) -> u32 {
    let needed = needed as u32;
    let room = match chance.below(16) {
        0..=4 => needed,
        5 | 6 => needed.saturating_sub(1),
        7 => 0,
        8 => chance.below(needed as usize) as u32,
        9 => needed + 1,
        10 | 11 => 8 * needed,
        12 if chance.one_in(20) => LARGEST_ROOM,
        _ => needed + chance.below(300) as u32,
    };
    room.min(LARGEST_ROOM)
}

/// Room for a copy of the length: exact, too small by one or more, none, or plenty.
fn room_for_copy(chance: &mut Chance, needed: u32) -> u32 {
    let room = match chance.below(16) {
        0..=6 => needed,
        7..=9 => needed.saturating_sub(1),
        10 => needed + 1,
        11 => 0,
        12 => chance.below(needed as usize) as u32,
        13 if chance.one_in(10) => LARGEST_ROOM_FOR_COPY,
        _ => needed + chance.below(300) as u32,
    };
    room.min(LARGEST_ROOM_FOR_COPY)
}
