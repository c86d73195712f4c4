//! The calls that read a dump with a name file.

use crate::answers::{self, Event, Lent, Name, Refusal};
use crate::raw::{self, Reading};

fn both<'lent>(dump: &'lent [u8], names: &'lent [u8]) -> Lent<'lent> {
    let names = Some(names);
    Lent { dump, names }
}

/// One event by its position, from 0, oldest first, with its own name too: checks 1 to 13 with 26, then 2 and 27 for the file, then 25.
pub fn event_with_names<'lent>(
    dump: &'lent [u8],
    names: &'lent [u8],
    position: usize,
) -> Result<Event<'lent>, Refusal> {
    // SAFETY: the slices may be read for their lengths, and nothing writes them while they are borrowed.
    answers::event(both(dump, names), unsafe {
        raw::lepsaino_event_with_names(
            dump.as_ptr(),
            dump.len(),
            names.as_ptr(),
            names.len(),
            position,
        )
    })
}

/// The name for a pointer in the dump, or else in the file: checks 1 to 11 with 26, then 2 and 27 for the file.
pub fn find_name_with_names<'lent>(
    dump: &'lent [u8],
    names: &'lent [u8],
    pointer: u32,
) -> Result<Option<Name<'lent>>, Refusal> {
    // SAFETY: the slices may be read for their lengths, and nothing writes them while they are borrowed.
    answers::name(both(dump, names), unsafe {
        raw::lepsaino_find_name_with_names(
            dump.as_ptr(),
            dump.len(),
            names.as_ptr(),
            names.len(),
            pointer,
        )
    })
}

/// The line of one event at the front of the output, and its length: checks 1 to 15 with 26, then 2 and 27 for the file, then 25, 16.
pub fn line_with_names(
    dump: &[u8],
    names: &[u8],
    reading: Reading,
    position: usize,
    out: &mut [u8],
) -> Result<usize, Refusal> {
    // SAFETY: the output is borrowed for this call alone, so that it may be written and overlaps neither the dump nor the name file.
    answers::value(unsafe {
        raw::lepsaino_line_with_names(
            dump.as_ptr(),
            dump.len(),
            reading,
            position,
            names.as_ptr(),
            names.len(),
            out.as_mut_ptr(),
            out.len(),
        )
    })
}

/// A line for each event, oldest first, at the front of the output, and their length: checks 1 to 15 with 26, then 2 and 27 for the file, then 16.
pub fn listing_with_names(
    dump: &[u8],
    names: &[u8],
    reading: Reading,
    out: &mut [u8],
) -> Result<usize, Refusal> {
    // SAFETY: the output is borrowed for this call alone, so that it may be written and overlaps neither the dump nor the name file.
    answers::value(unsafe {
        raw::lepsaino_listing_with_names(
            dump.as_ptr(),
            dump.len(),
            reading,
            names.as_ptr(),
            names.len(),
            out.as_mut_ptr(),
            out.len(),
        )
    })
}
