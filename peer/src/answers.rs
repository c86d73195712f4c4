//! Makes one call on a buffer and a name file, and holds everything it answers.

use crate::call::{Call, Naming};
use crate::check::{check, Summary};
use crate::digest::digest;
use crate::event::{event, event_with_names, Context, Event};
use crate::find_name::{find_name, find_name_with_names};
use crate::format::format;
use crate::line::{line, line_with_names};
use crate::listing::{listing, listing_with_names};
use crate::mend::{mend, Mended};
use crate::name::{Name, NameKind};
use crate::record::record;
use crate::refusal::Refusal;
use crate::register::register;
use crate::remove::remove;
use crate::write_name::{write_name, NameRecord};

/// A name's bytes, its kind, and its offset in the dump or, where it is filed, in the name file.
#[derive(Clone, Debug, PartialEq, Eq)]
pub struct FoundName {
    pub bytes: Vec<u8>,
    pub at: usize,
    pub kind: NameKind,
}

#[derive(Clone, Debug, PartialEq, Eq)]
pub struct EventAnswer {
    pub words: [u32; 8],
    pub ticks: u64,
    pub context: Context,
    pub name: Option<FoundName>,
    /// The outer none is that of a call without a name file.
    pub event_name: Option<Option<FoundName>>,
}

#[derive(Clone, Debug, PartialEq, Eq)]
pub struct MendAnswer {
    pub mended: Mended,
    pub copy: Vec<u8>,
}

#[derive(Clone, Debug, PartialEq, Eq)]
pub enum Reply {
    Check(Result<Summary, Refusal>),
    Event(Result<EventAnswer, Refusal>),
    FindName(Result<Option<FoundName>, Refusal>),
    /// A line or a listing; changed counts the output bytes past the text that are not as before.
    Text {
        result: Result<Vec<u8>, Refusal>,
        changed: usize,
    },
    /// Format, record, register or remove, with the digest of the whole buffer afterwards; or a record's writing, with that of the whole name file.
    Written {
        result: Result<usize, Refusal>,
        digest: u64,
    },
    Bytes(Vec<u8>),
    /// Changed counts the output bytes past the copy that are not as before.
    Mend {
        result: Result<MendAnswer, Refusal>,
        changed: usize,
    },
}

impl Reply {
    pub fn refusal(&self) -> Option<Refusal> {
        match self {
            Reply::Check(result) => result.as_ref().err().copied(),
            Reply::Event(result) => result.as_ref().err().copied(),
            Reply::FindName(result) => result.as_ref().err().copied(),
            Reply::Text { result, .. } => result.as_ref().err().copied(),
            Reply::Written { result, .. } => result.as_ref().err().copied(),
            Reply::Bytes(_) => None,
            Reply::Mend { result, .. } => result.as_ref().err().copied(),
        }
    }
}

const UNTOUCHED: u8 = b'.';
const NOT_LENT: usize = 64;

pub fn answer(buffer: &mut [u8], names: &mut [u8], call: &Call) -> Reply {
    match call {
        Call::Check => Reply::Check(check(buffer)),
        Call::Event { position } => {
            let found = event(buffer, *position);
            Reply::Event(found.map(|event| event_answer(buffer, &[], &event)))
        }
        Call::EventWithNames { position } => {
            let found = event_with_names(buffer, names, *position);
            Reply::Event(found.map(|event| event_answer(buffer, names, &event)))
        }
        Call::FindName { pointer } => {
            let found = find_name(buffer, *pointer);
            Reply::FindName(found.map(|name| name.map(|name| found_name(buffer, &[], name))))
        }
        Call::FindNameWithNames { pointer } => {
            let found = find_name_with_names(buffer, names, *pointer);
            Reply::FindName(found.map(|name| name.map(|name| found_name(buffer, names, name))))
        }
        Call::Line {
            reading,
            position,
            room,
        } => text(*room, |output| line(buffer, reading, *position, output)),
        Call::LineWithNames {
            reading,
            position,
            room,
        } => text(*room, |output| {
            line_with_names(buffer, names, reading, *position, output)
        }),
        Call::Listing { reading, room } => text(*room, |output| listing(buffer, reading, output)),
        Call::ListingWithNames { reading, room } => text(*room, |output| {
            listing_with_names(buffer, names, reading, output)
        }),
        Call::Format(plan) => written(format(buffer, plan), buffer),
        Call::Record(words) => written(record(buffer, words), buffer),
        Call::Register(registration) => written(register(buffer, &registration.object()), buffer),
        Call::Remove { pointer } => written(remove(buffer, *pointer), buffer),
        Call::Bytes => Reply::Bytes(buffer.to_vec()),
        Call::Mend { room } => mended(*room, buffer),
        Call::WriteName(naming) => written(named(names, naming), names),
    }
}

fn named(names: &mut [u8], naming: &Naming) -> Result<usize, Refusal> {
    let record = NameRecord {
        named: naming.named,
        number: naming.number,
        name: &naming.name.bytes(),
    };
    write_name(names, naming.offset, &record)
}

fn written(result: Result<usize, Refusal>, buffer: &[u8]) -> Reply {
    let digest = digest(buffer);
    Reply::Written { result, digest }
}

fn text(room: u32, call: impl FnOnce(&mut [u8]) -> Result<usize, Refusal>) -> Reply {
    let (result, text, changed) = with_output(room, call, |&length| length);
    let result = result.map(|_| text);
    Reply::Text { result, changed }
}

fn mended(room: u32, dump: &[u8]) -> Reply {
    let call = |output: &mut [u8]| mend(dump, output);
    let (result, copy, changed) = with_output(room, call, |mended| mended.length);
    let result = result.map(|mended| MendAnswer { mended, copy });
    Reply::Mend { result, changed }
}

/// What the call gives, what it wrote, which has the length told, and how many bytes past that are not as before.
fn with_output<T>(
    room: u32,
    call: impl FnOnce(&mut [u8]) -> Result<T, Refusal>,
    length: impl FnOnce(&T) -> usize,
) -> (Result<T, Refusal>, Vec<u8>, usize) {
    let room = room as usize;
    let mut output = vec![UNTOUCHED; room + NOT_LENT];
    let result = call(&mut output[..room]);
    let written = result.as_ref().map_or(0, length);
    let past = output.split_off(written);
    let changed = past.iter().filter(|&&byte| byte != UNTOUCHED).count();
    (result, output, changed)
}

fn event_answer(dump: &[u8], names: &[u8], event: &Event) -> EventAnswer {
    let found = |name: Option<Name>| name.map(|name| found_name(dump, names, name));
    let [one, two, three, four] = event.information;
    let words = [
        event.pointer,
        event.field,
        event.id,
        event.stamp,
        one,
        two,
        three,
        four,
    ];
    EventAnswer {
        words,
        ticks: event.ticks,
        context: event.context,
        name: found(event.name),
        event_name: event.event_name.map(found),
    }
}

/// The name is a part of the dump or of the name file, so the two addresses tell where.
fn found_name(dump: &[u8], names: &[u8], name: Name) -> FoundName {
    let whole = match name.kind {
        NameKind::Live | NameKind::Gone => dump,
        NameKind::Filed => names,
    };
    FoundName {
        bytes: name.bytes.to_vec(),
        at: name.bytes.as_ptr() as usize - whole.as_ptr() as usize,
        kind: name.kind,
    }
}
