//! The same behind calls that are not inlined, as the library's are.

use super::pieces::Pieces;
use super::{check, find, mend, record, Refusal};
use lepsaino::{Mended, Name};

#[inline(never)]
pub fn check(dump: &[u8]) -> Result<usize, Refusal> {
    check::check(dump)
}

#[inline(never)]
pub fn feed(state: &mut Pieces, piece: &[u8]) {
    state.feed(piece)
}

/// The state is handed over and back, as the library's is.
#[inline(never)]
pub fn feed_by_value(mut state: Pieces, piece: &[u8]) -> Pieces {
    state.feed(piece);
    state
}

#[inline(never)]
pub fn finish(state: &Pieces) -> Result<usize, Refusal> {
    state.finish()
}

#[inline(never)]
pub fn find_name(dump: &[u8], pointer: u32) -> Result<Option<Name<'_>>, Refusal> {
    find::find_name(dump, pointer)
}

#[inline(never)]
pub fn record(buffer: &mut [u8], words: &[u32; 8]) -> Result<usize, Refusal> {
    record::record(buffer, words)
}

#[inline(never)]
pub fn mend(dump: &[u8], copy: &mut [u8]) -> Result<Mended, Refusal> {
    mend::mend(dump, copy)
}
