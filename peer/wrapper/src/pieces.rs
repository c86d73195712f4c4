//! The check of a dump that comes in pieces.

use crate::answers::{self, Checked, Refusal};
use crate::raw;

/// The state of a check that is fed a dump in pieces of any length, cut anywhere; a copy may be kept and fed in another way.
#[must_use]
#[derive(Clone, Copy, Debug, PartialEq, Eq)]
pub struct Pieces(raw::Pieces);

impl Pieces {
    /// The state before any byte.
    pub fn begin() -> Pieces {
        // SAFETY: the call is lent nothing.
        Pieces(unsafe { raw::lepsaino_begin() })
    }

    /// The state after one piece more; nothing is refused before the finish.
    pub fn feed(self, piece: &[u8]) -> Pieces {
        // SAFETY: the slice may be read for its length, and nothing writes it while it is borrowed.
        Pieces(unsafe { raw::lepsaino_feed(self.0, piece.as_ptr(), piece.len()) })
    }

    /// What `check` gives on all the bytes that were fed: 1 to 7, 26, 8, 9, 26, 10 to 13.
    pub fn finish(self) -> Result<Checked, Refusal> {
        // SAFETY: the call is lent nothing.
        answers::checked(unsafe { raw::lepsaino_finish(self.0) })
    }
}
