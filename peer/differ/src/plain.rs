//! A call made as C makes it, so that every field of the struct it gives is seen.

use crate::arguments;
use crate::loan::Loan;
use lepsaino::raw::*;
use peer::call::Call;
use peer::generate::chance::Chance;

#[derive(Debug, PartialEq, Eq)]
pub enum Given {
    Checked(Checked),
    Event(Event),
    Name(Name),
    Answer(Answer),
    Mended(Mended),
}

/// None for the one kind of call that the library does not have.
pub fn answer(chance: &mut Chance, loan: &mut Loan, call: &Call) -> Option<Given> {
    let (buffer, length) = loan.buffer.pointer(chance);
    let (names, names_length) = loan.names.pointer(chance);
    let (name, name_length) = loan.name.pointer(chance);
    let (out, room) = loan.out.pointer(chance);
    // SAFETY: each pointer is to so many bytes of a part of its own, or null with the length 0, and the parts live until the end.
    unsafe {
        Some(match call {
            Call::Check => Given::Checked(lepsaino_check(buffer, length)),
            Call::Event { position } => Given::Event(lepsaino_event(buffer, length, *position)),
            Call::FindName { pointer } => Given::Name(lepsaino_find_name(buffer, length, *pointer)),
            Call::Line {
                reading, position, ..
            } => {
                let reading = arguments::reading(reading);
                Given::Answer(lepsaino_line(buffer, length, reading, *position, out, room))
            }
            Call::Listing { reading, .. } => {
                let reading = arguments::reading(reading);
                Given::Answer(lepsaino_listing(buffer, length, reading, out, room))
            }
            Call::Format(plan) => {
                let format = arguments::format(chance, plan);
                Given::Answer(lepsaino_format(buffer, length, format))
            }
            Call::Record(words) => {
                let slot = arguments::slot(words);
                Given::Answer(lepsaino_record(buffer, length, slot))
            }
            Call::Register(registration) => {
                let object = arguments::object(registration);
                Given::Answer(lepsaino_register(buffer, length, object, name, name_length))
            }
            Call::Remove { pointer } => Given::Answer(lepsaino_remove(buffer, length, *pointer)),
            Call::Mend { .. } => Given::Mended(lepsaino_mend(buffer, length, out, room)),
            Call::EventWithNames { position } => Given::Event(lepsaino_event_with_names(
                buffer,
                length,
                names,
                names_length,
                *position,
            )),
            Call::FindNameWithNames { pointer } => Given::Name(lepsaino_find_name_with_names(
                buffer,
                length,
                names,
                names_length,
                *pointer,
            )),
            Call::LineWithNames {
                reading, position, ..
            } => Given::Answer(lepsaino_line_with_names(
                buffer,
                length,
                arguments::reading(reading),
                *position,
                names,
                names_length,
                out,
                room,
            )),
            Call::ListingWithNames { reading, .. } => Given::Answer(lepsaino_listing_with_names(
                buffer,
                length,
                arguments::reading(reading),
                names,
                names_length,
                out,
                room,
            )),
            Call::WriteName(naming) => Given::Answer(lepsaino_write_name(
                names,
                names_length,
                naming.offset,
                arguments::thread(chance, naming.named),
                naming.number,
                name,
                name_length,
            )),
            Call::Bytes => return None,
        })
    }
}
