//! The calls that write into a buffer or a name file.

use crate::answers::{self, Naming, Refusal};
use crate::raw::{self, Format, Object, Slot};

/// Formats a buffer and gives the number of slots: checks 2, 4, 5, 24.
pub fn format(buffer: &mut [u8], format: Format) -> Result<usize, Refusal> {
    // SAFETY: the buffer is borrowed for this call alone, so that it may be read and written for its length.
    answers::value(unsafe { raw::lepsaino_format(buffer.as_mut_ptr(), buffer.len(), format) })
}

/// Records an event in the slot at current and gives the slot's index: checks 1 to 10 with 26, then 17, 18.
pub fn record(buffer: &mut [u8], slot: Slot) -> Result<usize, Refusal> {
    // SAFETY: the buffer is borrowed for this call alone, so that it may be read and written for its length.
    answers::value(unsafe { raw::lepsaino_record(buffer.as_mut_ptr(), buffer.len(), slot) })
}

/// Registers an object in the lowest free entry and gives the entry's index: checks 1 to 10 with 26, then 19, 23, 20, 21.
pub fn register(buffer: &mut [u8], object: Object, name: &[u8]) -> Result<usize, Refusal> {
    // SAFETY: the buffer is borrowed for this call alone, so that it may be written and does not overlap the name.
    answers::value(unsafe {
        raw::lepsaino_register(
            buffer.as_mut_ptr(),
            buffer.len(),
            object,
            name.as_ptr(),
            name.len(),
        )
    })
}

/// Frees the lowest entry in use that has a pointer and gives the entry's index: checks 1 to 10 with 26, then 22.
pub fn remove(buffer: &mut [u8], pointer: u32) -> Result<usize, Refusal> {
    // SAFETY: the buffer is borrowed for this call alone, so that it may be read and written for its length.
    answers::value(unsafe { raw::lepsaino_remove(buffer.as_mut_ptr(), buffer.len(), pointer) })
}

/// Writes one record of a name file at an offset and gives the record's length: checks 28, 16.
pub fn write_name(names: &mut [u8], offset: usize, naming: Naming) -> Result<usize, Refusal> {
    // SAFETY: the name file is borrowed for this call alone, so that it may be written and does not overlap the name.
    answers::value(unsafe {
        raw::lepsaino_write_name(
            names.as_mut_ptr(),
            names.len(),
            offset,
            u32::from(naming.thread),
            naming.number,
            naming.name.as_ptr(),
            naming.name.len(),
        )
    })
}
