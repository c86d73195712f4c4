//! Prints a case and its replies in the form that the answers are compared in.

use crate::answers::{EventAnswer, FoundName, MendAnswer, Reply};
use crate::check::{check, Summary};
use crate::digest::digest;
use crate::order::ByteOrder;
use crate::refusal::Refusal;
use crate::text::push_name;

const LONGEST_SHOWN: usize = 1_024;

pub fn print_title(title: &str, buffer: &[u8], names: &[u8], printed: &mut Vec<u8>) {
    let digests = format!("{} {}", digest(buffer), digest(names));
    push_text(printed, &format!("{}: {}\n", title, digests));
}

pub fn print_reply(reply: &Reply, printed: &mut Vec<u8>) {
    match reply {
        Reply::Check(Ok(summary)) => print_summary(summary, printed),
        Reply::Event(Ok(event)) => print_event(event, printed),
        Reply::FindName(Ok(name)) => print_name(name.as_ref(), printed),
        Reply::Text {
            result: Ok(text),
            changed,
        } => {
            push_text(printed, &format!("{} {}\n", text.len(), changed));
            printed.extend_from_slice(text);
        }
        Reply::Written {
            result: Ok(value),
            digest,
        } => push_text(printed, &format!("done {} {}\n", value, digest)),
        Reply::Bytes(bytes) => print_bytes(bytes, printed),
        Reply::Mend {
            result: Ok(answer),
            changed,
        } => print_mended(answer, *changed, printed),
        Reply::Check(Err(refusal)) | Reply::Event(Err(refusal)) => {
            print_refusal(refusal, None, printed)
        }
        Reply::FindName(Err(refusal)) => print_refusal(refusal, Some(0), printed),
        Reply::Text {
            result: Err(refusal),
            changed,
        }
        | Reply::Mend {
            result: Err(refusal),
            changed,
        } => print_refusal(refusal, Some(*changed as u64), printed),
        Reply::Written {
            result: Err(refusal),
            digest,
        } => print_refusal(refusal, Some(*digest), printed),
    }
}

fn push_text(printed: &mut Vec<u8>, text: &str) {
    printed.extend_from_slice(text.as_bytes());
}

fn print_refusal(refusal: &Refusal, further: Option<u64>, printed: &mut Vec<u8>) {
    push_text(printed, &format!("{} {}", refusal.number, refusal.place));
    if let Some(further) = further {
        push_text(printed, &format!(" {}", further));
    }
    printed.push(b'\n');
}

fn print_summary(summary: &Summary, printed: &mut Vec<u8>) {
    let header = &summary.header;
    let order = match header.order {
        ByteOrder::Little => "little",
        ByteOrder::Big => "big",
    };
    push_text(printed, order);
    let fields = [
        header.id,
        header.mask,
        header.base,
        header.registry_start,
        header.name_size.into(),
        header.registry_end,
        header.buffer_start,
        header.buffer_end,
        header.current,
    ];
    for field in fields {
        push_text(printed, &format!(" {}", field));
    }
    push_text(printed, &format!(" {}\n", summary.events));
}

fn print_event(event: &EventAnswer, printed: &mut Vec<u8>) {
    for word in event.words {
        push_text(printed, &format!("{} ", word));
    }
    push_text(
        printed,
        &format!("{} {} ", event.ticks, event.context.text()),
    );
    print_text_and_kind(event.name.as_ref(), printed);
    if let Some(name) = &event.event_name {
        printed.push(b' ');
        print_text_and_kind(name.as_ref(), printed);
    }
    printed.push(b'\n');
}

fn print_name(name: Option<&FoundName>, printed: &mut Vec<u8>) {
    print_text_and_kind(name, printed);
    let after = match name {
        Some(name) => format!(" {} {}\n", name.bytes.len(), name.at),
        None => " 0\n".to_string(),
    };
    push_text(printed, &after);
}

/// The name's text as in a line; behind it, where there is a name, its kind.
fn print_text_and_kind(name: Option<&FoundName>, printed: &mut Vec<u8>) {
    push_name(printed, name.map(|name| &name.bytes[..]));
    if let Some(name) = name {
        push_text(printed, &format!(" {}", name.kind.text()));
    }
}

fn print_bytes(bytes: &[u8], printed: &mut Vec<u8>) {
    if bytes.len() <= LONGEST_SHOWN {
        for byte in bytes {
            push_text(printed, &format!("{:02x}", byte));
        }
    }
    printed.push(b'\n');
}

/// The length, the six counts, the changed bytes past the copy and the copy's digest; then the check of the copy.
fn print_mended(answer: &MendAnswer, changed: usize, printed: &mut Vec<u8>) {
    push_text(printed, &format!("{}", answer.mended.length));
    for count in answer.mended.counts() {
        push_text(printed, &format!(" {}", count));
    }
    push_text(printed, &format!(" {} {}\n", changed, digest(&answer.copy)));
    print_reply(&Reply::Check(check(&answer.copy)), printed);
}
