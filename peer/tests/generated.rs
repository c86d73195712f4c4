//! Generated cases: no call panics, a refusal alters nothing, a listing is its lines one after the other, an event has the name that is found, and a name file changes no more than it says.

use peer::answers::{answer, Reply};
use peer::call::Call;
use peer::generate::Generator;
use peer::*;

#[test]
fn a_refusal_alters_nothing() {
    let mut generator = Generator::new(1);
    for _ in 0..3_000 {
        let case = generator.next_case();
        let mut buffer = case.buffer();
        let mut names = case.names();
        for call in &case.calls {
            let before = (buffer.clone(), names.clone());
            let reply = answer(&mut buffer, &mut names, call);
            if reply.refusal().is_some() {
                let after = (&buffer, &names);
                assert_eq!(after, (&before.0, &before.1), "{}", case.title);
            }
            if let Reply::Text { changed, .. } | Reply::Mend { changed, .. } = reply {
                assert_eq!(changed, 0, "{}", case.title);
            }
        }
    }
}

#[test]
fn a_listing_is_its_lines() {
    let mut generator = Generator::new(2);
    for _ in 0..2_000 {
        let case = generator.next_case();
        let mut buffer = case.buffer();
        let mut names = case.names();
        for call in &case.calls {
            let reply = answer(&mut buffer, &mut names, call);
            let text = match reply {
                Reply::Text {
                    result: Ok(text), ..
                } => text,
                _ => continue,
            };
            let lines = match call {
                Call::Listing { reading, .. } => lines(&buffer, |position, output| {
                    line(&buffer, reading, position, output)
                }),
                Call::ListingWithNames { reading, .. } => lines(&buffer, |position, output| {
                    line_with_names(&buffer, &names, reading, position, output)
                }),
                _ => continue,
            };
            assert_eq!(text, lines, "{}", case.title);
        }
    }
}

fn lines(dump: &[u8], line: impl Fn(usize, &mut [u8]) -> Result<usize, Refusal>) -> Vec<u8> {
    let mut text = Vec::new();
    for position in 0..check(dump).unwrap().events {
        let mut output = vec![0; 20_000];
        let length = line(position, &mut output).unwrap();
        text.extend_from_slice(&output[..length]);
    }
    text
}

/// With an empty file a line only gets "event" and null behind its id; the name that a file gives stands in the place of null alone.
#[test]
fn a_file_changes_nothing_else() {
    let reading = Reading::new(1_000, 7, 8);
    let mut generator = Generator::new(12);
    let mut changed = 0;
    for _ in 0..3_000 {
        let case = generator.next_case();
        let (dump, names) = (case.buffer(), case.names());
        let events = check(&dump).map_or(0, |summary| summary.events);
        for position in 0..events.min(20) {
            let with = |names: Option<&[u8]>| {
                let text = peer::line::line_text(&dump, names, &reading, position);
                text.map(|text| String::from_utf8(text).unwrap())
            };
            let plain = with(None).unwrap();
            let empty = plain.replacen(",\"ptr\"", ",\"event\":null,\"ptr\"", 1);
            assert_eq!(with(Some(&[])), Ok(empty.clone()));
            if let Ok(text) = with(Some(&names)) {
                changed += usize::from(text != empty);
                assert_eq!(without_names(&dump, &names, position, &text), empty);
            }
        }
    }
    assert!(changed > 200, "{} lines with names", changed);
}

/// The line with null again for each name that came from the file.
fn without_names(dump: &[u8], names: &[u8], position: usize, text: &str) -> String {
    let event = event_with_names(dump, names, position).unwrap();
    let mut text = text.to_string();
    let filed = event.name.filter(|name| name.kind == NameKind::Filed);
    let given = [("event", event.event_name.unwrap()), ("name", filed)];
    for (member, name) in given {
        if let Some(name) = name {
            let mut printed = Vec::new();
            peer::text::push_name(&mut printed, Some(name.bytes));
            let printed = String::from_utf8(printed).unwrap();
            let found = format!("\"{}\":{},", member, printed);
            assert!(text.contains(&found), "{}", text);
            text = text.replacen(&found, &format!("\"{}\":null,", member), 1);
        }
    }
    text
}

/// For the pointer of a thread's event or the field of an isr event; an init event has none.
#[test]
fn an_event_has_the_name_that_is_found() {
    let mut generator = Generator::new(9);
    let mut gone = 0;
    for _ in 0..2_000 {
        let case = generator.next_case();
        let (dump, names) = (case.buffer(), case.names());
        let events = check(&dump).map_or(0, |summary| summary.events);
        for position in 0..events.min(20) {
            let event = event(&dump, position).unwrap();
            let name = match event.context {
                Context::Init => None,
                Context::Isr => find_name(&dump, event.field).unwrap(),
                Context::Thread => find_name(&dump, event.pointer).unwrap(),
            };
            assert_eq!(event.name, name);
            must_be_found_with_names(&dump, &names, position);
            gone += usize::from(name.map_or(false, |name| name.kind == NameKind::Gone));
        }
    }
    assert!(gone > 100, "{} names of gone threads", gone);
}

fn must_be_found_with_names(dump: &[u8], names: &[u8], position: usize) {
    let event = match event_with_names(dump, names, position) {
        Ok(event) => event,
        Err(refusal) => return assert!(matches!(refusal.number, 2 | 27)),
    };
    let name = match event.context {
        Context::Init => None,
        Context::Isr => find_name_with_names(dump, names, event.field).unwrap(),
        Context::Thread => find_name_with_names(dump, names, event.pointer).unwrap(),
    };
    assert_eq!(event.name, name);
}

#[test]
fn a_seed_gives_the_same_cases() {
    let (mut one, mut other) = (Generator::new(3), Generator::new(3));
    for _ in 0..200 {
        assert_eq!(one.next_case(), other.next_case());
    }
}

#[test]
fn any_length_of_any_byte() {
    for fill in [0, 1, 0x42, 0x54, 0xFF] {
        for length in (0..200).chain([65_535, 65_536, 65_537]) {
            let mut buffer = vec![fill; length];
            let refusal = check(&buffer).unwrap_err();
            assert_eq!(event(&buffer, 0), Err(refusal));
            assert_eq!(record(&mut buffer, &[1; 8]), Err(refusal));
        }
    }
}
