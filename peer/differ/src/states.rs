//! Feeds states that no dump leads to. What they give may be anything, and does not depend on how the bytes are cut.

use crate::cuts::Cut;
use crate::lent::Lent;
use crate::pieces::{begun, fed, finished};
use crate::told::hex;
use lepsaino::raw::Pieces;
use peer::generate::chance::Chance;

/// Such a state may take each byte for a slot, so that a long dump would take long.
const MOST_BYTES: usize = 1024;

/// The front of the dump leads to a state, which is changed and then fed with the rest.
pub fn compare(chance: &mut Chance, lent: &mut Lent, dump: &[u8]) -> Result<(), String> {
    let dump = &dump[..dump.len().min(MOST_BYTES)];
    let (front, rest) = dump.split_at(chance.below(dump.len() + 1));
    let reached = fed(chance, lent, begun(), &Cut::whole(front))?;
    let state = changed(chance, reached);
    let cut = Cut::new(chance, rest);
    let one = fed(chance, lent, state, &Cut::whole(rest))?;
    let several = fed(chance, lent, state, &cut)?;
    if one == several && finished(one) == finished(several) {
        return Ok(());
    }
    let (told, bytes) = (cut.told(), hex(rest));
    Err(format!(
        "the state {state:?}\nis fed {bytes}\nin one piece: {one:?}\n{told}: {several:?}"
    ))
}

/// Every field is another, or half of them, or few.
fn changed(chance: &mut Chance, state: Pieces) -> Pieces {
    let times = chance.pick(&[1, 2, 8]);
    Pieces {
        header: bytes(chance, times, state.header),
        entries: number(chance, times, state.entries),
        entry_size: number(chance, times, state.entry_size),
        start: number(chance, times, state.start),
        slots: number(chance, times, state.slots),
        slot_size: number(chance, times, state.slot_size),
        current: number(chance, times, state.current),
        front: bytes(chance, times, state.front),
        came: number(chance, times, state.came),
        entries_passed: number(chance, times, state.entries_passed),
        bad_type: number(chance, times, state.bad_type),
        slots_passed: number(chance, times, state.slots_passed),
        unused: number(chance, times, state.unused),
        behind: number(chance, times, state.behind),
        no_id: number(chance, times, state.no_id),
        total: number(chance, times, state.total),
    }
}

fn bytes<const COUNT: usize>(chance: &mut Chance, times: usize, kept: [u8; COUNT]) -> [u8; COUNT] {
    if chance.one_in(times) {
        kept.map(|_| chance.byte())
    } else {
        kept
    }
}

/// Any number, a small one, or one beside a limit.
fn number(chance: &mut Chance, times: usize, kept: usize) -> usize {
    if !chance.one_in(times) {
        return kept;
    }
    match chance.below(4) {
        0 => chance.long() as usize,
        1 => chance.below(100),
        2 => kept.wrapping_add(chance.below(3)).wrapping_sub(1),
        _ => chance
            .pick(&[0, 12, 32, 48, 65_537, 1 << 32, 1 << 63, usize::MAX])
            .wrapping_sub(chance.below(2)),
    }
}
