//! Checks a dump in pieces, each of them lent alone, and compares with the peer's answer on the whole.

use crate::cuts::Cut;
use crate::lent::Lent;
use crate::plain::Given;
use crate::told::shown;
use crate::{expected, wrapped};
use lepsaino::raw::{lepsaino_begin, lepsaino_feed, lepsaino_finish, Checked, Pieces};
use peer::answers::Reply;
use peer::generate::chance::Chance;

pub fn compare(
    chance: &mut Chance,
    lent: &mut Lent,
    dump: &[u8],
    reply: &Reply,
) -> Result<(), String> {
    let cut = Cut::new(chance, dump);
    let compared = if chance.one_in(4) {
        compare_wrapped(chance, lent, &cut, reply)
    } else {
        compare_plain(chance, lent, &cut, reply)
    };
    compared.map_err(|difference| format!("{}\n{}", cut.told(), difference))
}

fn compare_plain(
    chance: &mut Chance,
    lent: &mut Lent,
    cut: &Cut,
    reply: &Reply,
) -> Result<(), String> {
    let state = fed(chance, lent, begun(), cut)?;
    let given = Given::Checked(finished(state));
    if expected::given(reply).as_ref() == Some(&given) {
        return Ok(());
    }
    Err(format!("the library gives {given:?}"))
}

fn compare_wrapped(
    chance: &mut Chance,
    lent: &mut Lent,
    cut: &Cut,
    reply: &Reply,
) -> Result<(), String> {
    let mut state = lepsaino::Pieces::begin();
    for piece in cut.pieces() {
        lent.copy(chance, piece);
        state = state.feed(lent.bytes());
        must_be_unchanged(lent, piece)?;
    }
    let given = wrapped::checked(state.finish());
    if given == *reply {
        return Ok(());
    }
    Err(format!("the wrapper gives {}", shown(&given)))
}

pub fn begun() -> Pieces {
    // SAFETY: the call is lent nothing.
    unsafe { lepsaino_begin() }
}

/// The state after all pieces.
pub fn fed(
    chance: &mut Chance,
    lent: &mut Lent,
    mut state: Pieces,
    cut: &Cut,
) -> Result<Pieces, String> {
    for piece in cut.pieces() {
        lent.copy(chance, piece);
        let (pointer, length) = lent.pointer(chance);
        // SAFETY: the pointer is to so many bytes that nothing writes, or null with the length 0.
        state = unsafe { lepsaino_feed(state, pointer, length) };
        must_be_unchanged(lent, piece)?;
    }
    Ok(state)
}

pub fn finished(state: Pieces) -> Checked {
    // SAFETY: the call is lent nothing.
    unsafe { lepsaino_finish(state) }
}

fn must_be_unchanged(lent: &Lent, piece: &[u8]) -> Result<(), String> {
    if lent.bytes() != piece {
        return Err("the library changed a piece".to_string());
    }
    if !lent.guards_hold() {
        return Err("the library changed bytes beside a piece".to_string());
    }
    Ok(())
}
