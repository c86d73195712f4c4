//! The calls of a case in the making that read or write its name file.

use super::chance::Chance;
use super::draft::{position, room, Draft};
use super::readings::{self, Readings};
use crate::answers::Reply;
use crate::call::{Call, Naming};
use crate::filled::Filled;
use crate::line::line_text;
use crate::listing::listing_text;
use crate::name_file::Named;
use crate::reading::Reading;

impl Draft {
    pub fn event_with_names(&mut self, chance: &mut Chance) {
        let position = position(chance, self.events());
        self.make(Call::EventWithNames { position });
    }

    pub fn find_name_with_names(&mut self, chance: &mut Chance) {
        let pointer = self.some_pointer(chance);
        self.make(Call::FindNameWithNames { pointer });
    }

    pub fn line_with_names(&mut self, chance: &mut Chance) {
        let events = self.events();
        let reading = readings::any(chance, events);
        let position = position(chance, events);
        let room = room(chance, self.line_length_with_names(&reading, position));
        self.make(Call::LineWithNames {
            reading,
            position,
            room,
        });
    }

    pub fn listing_with_names(&mut self, chance: &mut Chance, readings: &mut Readings) {
        let reading = readings.mostly_accepted(chance, self.events());
        let room = room(chance, self.listing_length_with_names(&reading));
        self.make(Call::ListingWithNames { reading, room });
    }

    /// The length of one line, or 0 where it is refused.
    pub fn line_length_with_names(&self, reading: &Reading, position: usize) -> usize {
        let text = line_text(&self.buffer, Some(&self.names), reading, position);
        text.map_or(0, |text| text.len())
    }

    /// The length of the whole listing, or 0 where it is refused.
    pub fn listing_length_with_names(&self, reading: &Reading) -> usize {
        let text = listing_text(&self.buffer, Some(&self.names), reading);
        text.map_or(0, |text| text.len())
    }

    /// Gives where the next record goes; the same offset where this one is refused.
    pub fn write_name(&mut self, named: Named, number: u32, offset: usize, name: Filled) -> usize {
        let reply = self.make(Call::WriteName(Naming {
            named,
            number,
            offset,
            name,
        }));
        match reply {
            Reply::Written {
                result: Ok(length), ..
            } => offset + length,
            _ => offset,
        }
    }
}
