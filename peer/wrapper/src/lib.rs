//! Reads and writes ThreadX trace buffers: the proved calls of the library, safe to use from Rust.
//!
//! A slice meets all that the header asks of a pointer and its length: it may be read for its length and is no longer than
//! `isize::MAX`; a mutable one may be written too, and overlaps nothing else that is lent.

pub mod raw;

mod answers;
mod named_readers;
mod pieces;
mod readers;
mod writers;

pub use answers::{Checked, Context, Event, Mended, Name, NameKind, Naming, Refusal};
pub use named_readers::{
    event_with_names, find_name_with_names, line_with_names, listing_with_names,
};
pub use pieces::Pieces;
pub use raw::{Format, Object, Reading, Slot};
pub use readers::{check, event, find_name, line, listing, mend, number};
pub use writers::{format, record, register, remove, write_name};
