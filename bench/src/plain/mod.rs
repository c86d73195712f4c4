//! What the baselines in Rust share: a reader, a recorder and a mender as a careful user would write them by hand.
//! The ways in are always inlined, however many callers there are; loops are left to the compiler, which does better with them.

pub mod called;
pub mod check;
pub mod events;
pub mod find;
pub mod layout;
pub mod mend;
pub mod name_file;
pub mod names;
pub mod pieces;
pub mod record;
pub mod units;
pub mod words;

/// A number and a place, as documents 01 and 02 give them.
pub type Refusal = (u32, usize);
