//! The calls that read a dump.

use crate::answers::{self, Checked, Event, Lent, Mended, Name, Refusal};
use crate::raw::{self, Reading};

/// Checks a dump: 1 to 7, 26, 8, 9, 26, 10 to 13.
pub fn check(dump: &[u8]) -> Result<Checked, Refusal> {
    // SAFETY: the slice may be read for its length, and nothing writes it while it is borrowed.
    answers::checked(unsafe { raw::lepsaino_check(dump.as_ptr(), dump.len()) })
}

/// A dump without a name file.
fn alone(dump: &[u8]) -> Lent<'_> {
    Lent { dump, names: None }
}

/// One event by its position, from 0, oldest first: checks 1 to 13 with 26, then 25.
pub fn event(dump: &[u8], position: usize) -> Result<Event<'_>, Refusal> {
    // SAFETY: the slice may be read for its length, and nothing writes it while it is borrowed.
    answers::event(alone(dump), unsafe {
        raw::lepsaino_event(dump.as_ptr(), dump.len(), position)
    })
}

/// The name of the lowest live thread with a pointer, or else of the lowest that is gone: checks 1 to 11 with 26.
pub fn find_name(dump: &[u8], pointer: u32) -> Result<Option<Name<'_>>, Refusal> {
    // SAFETY: the slice may be read for its length, and nothing writes it while it is borrowed.
    answers::name(alone(dump), unsafe {
        raw::lepsaino_find_name(dump.as_ptr(), dump.len(), pointer)
    })
}

/// The line of one event at the front of the output, and its length: checks 1 to 15 with 26, then 25, 16.
pub fn line(
    dump: &[u8],
    reading: Reading,
    position: usize,
    out: &mut [u8],
) -> Result<usize, Refusal> {
    // SAFETY: the output is borrowed for this call alone, so that it may be written and does not overlap the dump.
    answers::value(unsafe {
        raw::lepsaino_line(
            dump.as_ptr(),
            dump.len(),
            reading,
            position,
            out.as_mut_ptr(),
            out.len(),
        )
    })
}

/// A line for each event, oldest first, at the front of the output, and their length: checks 1 to 16 with 26.
pub fn listing(dump: &[u8], reading: Reading, out: &mut [u8]) -> Result<usize, Refusal> {
    // SAFETY: the output is borrowed for this call alone, so that it may be written and does not overlap the dump.
    answers::value(unsafe {
        raw::lepsaino_listing(
            dump.as_ptr(),
            dump.len(),
            reading,
            out.as_mut_ptr(),
            out.len(),
        )
    })
}

/// A mended copy of the dump at the front of the second buffer, and what was mended: checks 1 to 9 with 26 at the registry end, then 16.
pub fn mend(dump: &[u8], copy: &mut [u8]) -> Result<Mended, Refusal> {
    // SAFETY: the second buffer is borrowed for this call alone, so that it may be written and does not overlap the dump.
    answers::mended(unsafe {
        raw::lepsaino_mend(dump.as_ptr(), dump.len(), copy.as_mut_ptr(), copy.len())
    })
}

/// The text of a number as in a line, at the front of the output, and its length; none where there is no room.
pub fn number(out: &mut [u8], number: u64) -> Option<usize> {
    // SAFETY: the output is borrowed for this call alone, so that it may be written for its length.
    let length = unsafe { raw::lepsaino_number(out.as_mut_ptr(), out.len(), number) };
    (length != 0).then_some(length)
}
