//! What the calls give: an answer, or a refusal.

use crate::raw::{self, Slot};

/// A number and a place, as documents 01 and 02 give them.
#[derive(Clone, Copy, Debug, PartialEq, Eq)]
pub struct Refusal {
    pub number: u32,
    pub place: usize,
}

/// The byte order, the header's fields as they are stored, and the number of events.
#[derive(Clone, Copy, Debug, PartialEq, Eq)]
pub struct Checked {
    pub big: bool,
    pub id: u32,
    pub mask: u32,
    pub base: u32,
    pub registry_start: u32,
    pub name_size: u16,
    pub registry_end: u32,
    pub buffer_start: u32,
    pub buffer_end: u32,
    pub current: u32,
    pub events: usize,
}

#[derive(Clone, Copy, Debug, PartialEq, Eq)]
pub enum Context {
    Init,
    Isr,
    Thread,
}

#[derive(Clone, Copy, Debug, PartialEq, Eq)]
pub enum NameKind {
    /// Of a thread whose entry is in use.
    Live,
    /// Of a thread whose entry is free again.
    Gone,
    /// From the name file.
    Filed,
}

/// A part of the name file where it is filed, of the dump where it is not.
#[derive(Clone, Copy, Debug, PartialEq, Eq)]
pub struct Name<'lent> {
    pub bytes: &'lent [u8],
    pub kind: NameKind,
}

#[derive(Clone, Copy, Debug, PartialEq, Eq)]
pub struct Event<'lent> {
    pub slot: Slot,
    pub ticks: u64,
    pub context: Context,
    pub name: Option<Name<'lent>>,
    /// The event's own name, which only a name file can have.
    pub event_name: Option<Name<'lent>>,
}

/// What is recorded in a name file: an event's id or a thread's pointer, and its name.
#[derive(Clone, Copy, Debug, PartialEq, Eq)]
pub struct Naming<'lent> {
    pub thread: bool,
    pub number: u32,
    pub name: &'lent [u8],
}

/// What a call is lent to find names in; without a name file no name can be filed.
#[derive(Clone, Copy)]
pub(crate) struct Lent<'lent> {
    pub dump: &'lent [u8],
    pub names: Option<&'lent [u8]>,
}

/// The length of a mended copy, and what was mended.
#[derive(Clone, Copy, Debug, PartialEq, Eq)]
pub struct Mended {
    pub length: usize,
    /// Slots zeroed as missing, or partly missing.
    pub missing: usize,
    /// 1 where current was bad and became the start.
    pub current: usize,
    /// Entries freed for a type that is not allowed.
    pub types: usize,
    /// Used slots zeroed for the id 0.
    pub ids: usize,
    /// 1 where the used slots were packed.
    pub packed: usize,
    /// Used slots whose index packing changed.
    pub moved: usize,
}

fn unless_refused<T>(number: u32, place: usize, given: impl FnOnce() -> T) -> Result<T, Refusal> {
    match number {
        0 => Ok(given()),
        _ => Err(Refusal { number, place }),
    }
}

pub(crate) fn value(answer: raw::Answer) -> Result<usize, Refusal> {
    unless_refused(answer.refusal, answer.place, || answer.value)
}

pub(crate) fn checked(answer: raw::Checked) -> Result<Checked, Refusal> {
    unless_refused(answer.refusal, answer.place, || Checked {
        big: answer.big != 0,
        id: answer.id,
        mask: answer.mask,
        base: answer.base,
        registry_start: answer.registry_start,
        name_size: answer.name_size,
        registry_end: answer.registry_end,
        buffer_start: answer.buffer_start,
        buffer_end: answer.buffer_end,
        current: answer.current,
        events: answer.events,
    })
}

pub(crate) fn mended(answer: raw::Mended) -> Result<Mended, Refusal> {
    unless_refused(answer.refusal, answer.place, || Mended {
        length: answer.length,
        missing: answer.missing,
        current: answer.current,
        types: answer.types,
        ids: answer.ids,
        packed: answer.packed,
        moved: answer.moved,
    })
}

pub(crate) fn event(lent: Lent<'_>, answer: raw::Event) -> Result<Event<'_>, Refusal> {
    unless_refused(answer.refusal, answer.place, || Event {
        slot: answer.slot,
        ticks: answer.ticks,
        context: context(answer.context),
        name: part(lent, answer.name_kind, answer.name_at, answer.name_length),
        event_name: own(part(
            lent,
            answer.event_kind,
            answer.event_at,
            answer.event_length,
        )),
    })
}

pub(crate) fn name(lent: Lent<'_>, answer: raw::Name) -> Result<Option<Name<'_>>, Refusal> {
    unless_refused(answer.refusal, answer.place, || {
        part(lent, answer.kind, answer.at, answer.length)
    })
}

fn part(lent: Lent<'_>, kind: u32, at: usize, length: usize) -> Option<Name<'_>> {
    let (kind, whole) = match (kind, lent.names) {
        (raw::NAMELESS, _) => return None,
        (raw::LIVE, _) => (NameKind::Live, lent.dump),
        (raw::GONE, _) => (NameKind::Gone, lent.dump),
        (raw::FILED, Some(names)) => (NameKind::Filed, names),
        _ => panic!(
            "the library gave the kind of name {}, which this call does not have",
            kind
        ),
    };
    let bytes = &whole[at..][..length];
    Some(Name { bytes, kind })
}

/// An event's own name is in no dump.
fn own(name: Option<Name<'_>>) -> Option<Name<'_>> {
    let of_dump = name.map_or(false, |name| name.kind != NameKind::Filed);
    assert!(!of_dump, "the library gave an event a thread's name");
    name
}

fn context(number: u32) -> Context {
    match number {
        raw::INIT => Context::Init,
        raw::ISR => Context::Isr,
        raw::THREAD => Context::Thread,
        _ => panic!(
            "the library gave the context {}, which the header does not name",
            number
        ),
    }
}
