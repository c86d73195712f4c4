//! What the peer answers, as the structs for C; after a refusal every field but its two is 0.

use crate::arguments::slot;
use crate::plain::Given;
use lepsaino::raw::{self, Answer, Checked, Event, Mended, Name};
use peer::answers::{EventAnswer, FoundName, MendAnswer, Reply};
use peer::{ByteOrder, Context, NameKind, Refusal, Summary};

/// None for the one kind of call that the library does not have.
pub fn given(reply: &Reply) -> Option<Given> {
    Some(match reply {
        Reply::Check(result) => Given::Checked(result.as_ref().map_or_else(unchecked, checked)),
        Reply::Event(result) => Given::Event(result.as_ref().map_or_else(no_event, event)),
        Reply::FindName(result) => Given::Name(
            result
                .as_ref()
                .map_or_else(no_name, |found| name(found.as_ref())),
        ),
        Reply::Text { result, .. } => Given::Answer(
            result
                .as_ref()
                .map_or_else(refused, |text| value(text.len())),
        ),
        Reply::Written { result, .. } => {
            Given::Answer(result.as_ref().map_or_else(refused, |done| value(*done)))
        }
        Reply::Mend { result, .. } => {
            Given::Mended(result.as_ref().map_or_else(not_mended, mended))
        }
        Reply::Bytes(_) => return None,
    })
}

fn value(value: usize) -> Answer {
    Answer {
        value,
        ..Answer::default()
    }
}

fn refused(refusal: &Refusal) -> Answer {
    Answer {
        refusal: refusal.number,
        place: refusal.place,
        ..Answer::default()
    }
}

fn unchecked(refusal: &Refusal) -> Checked {
    Checked {
        refusal: refusal.number,
        place: refusal.place,
        ..Checked::default()
    }
}

fn no_event(refusal: &Refusal) -> Event {
    Event {
        refusal: refusal.number,
        place: refusal.place,
        ..Event::default()
    }
}

fn no_name(refusal: &Refusal) -> Name {
    Name {
        refusal: refusal.number,
        place: refusal.place,
        ..Name::default()
    }
}

fn not_mended(refusal: &Refusal) -> Mended {
    Mended {
        refusal: refusal.number,
        place: refusal.place,
        ..Mended::default()
    }
}

fn mended(answer: &MendAnswer) -> Mended {
    let mended = &answer.mended;
    Mended {
        refusal: 0,
        place: 0,
        length: mended.length,
        missing: mended.missing,
        current: mended.current,
        types: mended.types,
        ids: mended.ids,
        packed: mended.packed,
        moved: mended.moved,
    }
}

fn checked(summary: &Summary) -> Checked {
    let header = &summary.header;
    Checked {
        refusal: 0,
        place: 0,
        big: u32::from(header.order == ByteOrder::Big),
        id: header.id,
        mask: header.mask,
        base: header.base,
        registry_start: header.registry_start,
        name_size: header.name_size,
        registry_end: header.registry_end,
        buffer_start: header.buffer_start,
        buffer_end: header.buffer_end,
        current: header.current,
        events: summary.events,
    }
}

fn name(found: Option<&FoundName>) -> Name {
    Name {
        refusal: 0,
        place: 0,
        kind: match found {
            None => raw::NAMELESS,
            Some(name) => match name.kind {
                NameKind::Live => raw::LIVE,
                NameKind::Gone => raw::GONE,
                NameKind::Filed => raw::FILED,
            },
        },
        at: found.map_or(0, |name| name.at),
        length: found.map_or(0, |name| name.bytes.len()),
    }
}

fn event(answer: &EventAnswer) -> Event {
    let own = name(answer.event_name.iter().flatten().next());
    let name = name(answer.name.as_ref());
    Event {
        refusal: 0,
        place: 0,
        slot: slot(&answer.words),
        ticks: answer.ticks,
        context: match answer.context {
            Context::Init => raw::INIT,
            Context::Isr => raw::ISR,
            Context::Thread => raw::THREAD,
        },
        name_kind: name.kind,
        name_at: name.at,
        name_length: name.length,
        event_kind: own.kind,
        event_at: own.at,
        event_length: own.length,
    }
}
