//! Names of removed threads: each sentence of request A5, at both sides.

use peer::print::print_reply;
use peer::*;

const POINTER: u32 = 0x2000_1000;
const OTHER: u32 = 0x2000_1004;
const INIT: u32 = 0xF0F0_F0F0;
const ISR: u32 = 0xFFFF_FFFF;

/// An entry's flag, type, pointer and name.
type Entry = (u8, u8, u32, &'static [u8; 4]);

const LIVE: Entry = (0, 1, POINTER, b"live");
const GONE: Entry = (1, 1, POINTER, b"gone");
const LATER: Entry = (1, 1, POINTER, b"late");
const ELSEWHERE: Entry = (1, 1, OTHER, b"else");
const FRESH: Entry = (1, 0, 0, b"\0\0\0\0");

/// Little-endian, name size 4, as many entries as are given and four unused slots.
fn dump(entries: &[Entry]) -> Vec<u8> {
    let mut buffer = formatted(entries.len());
    for (index, (flag, kind, pointer, name)) in entries.iter().enumerate() {
        let entry = &mut buffer[48 + 20 * index..][..20];
        entry[0] = *flag;
        entry[1] = *kind;
        entry[4..8].copy_from_slice(&pointer.to_le_bytes());
        entry[16..].copy_from_slice(&name[..]);
    }
    buffer
}

fn formatted(entries: usize) -> Vec<u8> {
    let plan = Plan {
        order: ByteOrder::Little,
        base: 0x2000_0000,
        mask: 0xFFFF,
        name_size: 4,
        entries,
    };
    let mut buffer = vec![0; 48 + 20 * entries + 32 * 4];
    assert_eq!(format(&mut buffer, &plan), Ok(4));
    buffer
}

fn thread(pointer: u32, name: &[u8]) -> Object<'_> {
    object(1, pointer, name)
}

fn object(kind: u8, pointer: u32, name: &[u8]) -> Object<'_> {
    Object {
        kind,
        pointer,
        parameters: [0, 0],
        reserved: [0, 0],
        name,
    }
}

fn live(bytes: &[u8]) -> Option<Name<'_>> {
    Some(Name {
        bytes,
        kind: NameKind::Live,
    })
}

fn gone(bytes: &[u8]) -> Option<Name<'_>> {
    Some(Name {
        bytes,
        kind: NameKind::Gone,
    })
}

fn found(dump: &[u8]) -> Option<Name<'_>> {
    find_name(dump, POINTER).unwrap()
}

/// Records an event with the pointer and the field, and gives the name of that event.
fn name_of_event(dump: &[u8], pointer: u32, field: u32) -> Option<(bool, Vec<u8>)> {
    let mut buffer = dump.to_vec();
    record(&mut buffer, &[pointer, field, 5, 0, 1, 2, 3, 4]).unwrap();
    let name = event(&buffer, 0).unwrap().name;
    name.map(|name| (name.kind == NameKind::Gone, name.bytes.to_vec()))
}

/// The line of an event with the pointer and the field, from "by" to "field".
fn line_of_event(dump: &[u8], pointer: u32, field: u32) -> String {
    let mut buffer = dump.to_vec();
    record(&mut buffer, &[pointer, field, 5, 0, 1, 2, 3, 4]).unwrap();
    let mut output = [0; 300];
    let length = line(&buffer, &Reading::new(1, 0, 0), 0, &mut output).unwrap();
    let text = String::from_utf8(output[..length].to_vec()).unwrap();
    let by = text.find(r#""by":"#).unwrap();
    let field = text.find(r#","field":"#).unwrap();
    text[by..field].to_string()
}

#[test]
fn a_removed_thread_keeps_its_name() {
    let mut buffer = formatted(2);
    register(&mut buffer, &thread(POINTER, b"pump")).unwrap();
    assert_eq!(found(&buffer), live(b"pump"));
    remove(&mut buffer, POINTER).unwrap();
    assert_eq!(found(&buffer), gone(b"pump"));
    assert_eq!(find_name(&buffer, OTHER), Ok(None));
}

#[test]
fn a_live_thread_wins_in_either_order() {
    assert_eq!(found(&dump(&[LIVE, GONE])), live(b"live"));
    assert_eq!(found(&dump(&[GONE, LIVE])), live(b"live"));
    assert_eq!(found(&dump(&[GONE, LATER, LIVE, GONE])), live(b"live"));
    let second = (0xFF, 1, POINTER, b"more");
    assert_eq!(found(&dump(&[GONE, LIVE, second])), live(b"live"));
    assert_eq!(found(&dump(&[GONE, second, LIVE])), live(b"more"));
}

#[test]
fn the_lowest_that_is_gone() {
    assert_eq!(found(&dump(&[GONE, LATER])), gone(b"gone"));
    assert_eq!(found(&dump(&[LATER, GONE])), gone(b"late"));
    assert_eq!(
        found(&dump(&[ELSEWHERE, FRESH, GONE, LATER])),
        gone(b"gone")
    );
}

/// Only the flag 1 means free.
#[test]
fn every_flag() {
    for flag in 0..=255 {
        let buffer = dump(&[(flag, 1, POINTER, b"pump")]);
        let expected = if flag == 1 { gone } else { live };
        assert_eq!(found(&buffer), expected(b"pump"), "flag {}", flag);
    }
}

/// A free entry may have any type; only type 1 names a thread, and none is refused.
#[test]
fn every_type_of_a_free_entry() {
    for kind in 0..=255 {
        let free = (1, kind, POINTER, b"free");
        let alone = dump(&[free]);
        let expected = if kind == 1 { gone(b"free") } else { None };
        assert_eq!(found(&alone), expected, "type {}", kind);
        assert!(check(&alone).is_ok());
        let before = dump(&[free, GONE]);
        let expected = if kind == 1 { b"free" } else { b"gone" };
        assert_eq!(found(&before), gone(expected), "type {}", kind);
    }
}

/// Another object in use that has the pointer is no thread, so the thread before it is still found.
#[test]
fn another_object_in_use_hides_nobody() {
    for kind in (2..=14).chain(21..=28) {
        let other = (0, kind, POINTER, b"lock");
        assert_eq!(found(&dump(&[other])), None);
        assert_eq!(found(&dump(&[other, GONE])), gone(b"gone"));
        assert_eq!(found(&dump(&[GONE, other])), gone(b"gone"));
        assert_eq!(found(&dump(&[other, GONE, LIVE])), live(b"live"));
    }
}

#[test]
fn other_pointers_do_not_match() {
    assert_eq!(found(&dump(&[ELSEWHERE])), None);
    assert_eq!(found(&dump(&[(0, 1, OTHER, b"live"), GONE])), gone(b"gone"));
    for bit in 0..32 {
        let near = (1, 1, POINTER ^ 1 << bit, b"near");
        assert_eq!(found(&dump(&[near])), None);
        assert_eq!(found(&dump(&[near, GONE])), gone(b"gone"));
    }
}

/// Its free entries have the pointer 0 and the type 0.
#[test]
fn a_fresh_buffer_names_nobody() {
    let buffer = formatted(3);
    for pointer in [0, 1, POINTER, INIT, ISR] {
        assert_eq!(find_name(&buffer, pointer), Ok(None));
    }
    assert_eq!(name_of_event(&buffer, ISR, 0), None);
    assert_eq!(name_of_event(&buffer, POINTER, 16), None);
    let thread = dump(&[FRESH, (1, 1, 0, b"null")]);
    assert_eq!(find_name(&thread, 0), Ok(gone(b"null")));
}

#[test]
fn no_entries_name_nobody() {
    assert_eq!(found(&formatted(0)), None);
}

#[test]
fn an_event_says_which_kind() {
    let by_thread = |entries: &[Entry]| name_of_event(&dump(entries), POINTER, OTHER);
    assert_eq!(by_thread(&[GONE]), Some((true, b"gone".to_vec())));
    assert_eq!(by_thread(&[GONE, LIVE]), Some((false, b"live".to_vec())));
    assert_eq!(by_thread(&[LIVE, GONE]), Some((false, b"live".to_vec())));
    assert_eq!(by_thread(&[ELSEWHERE, FRESH]), None);
}

#[test]
fn an_isr_event_is_named_by_its_field() {
    let by_isr = |entries: &[Entry]| name_of_event(&dump(entries), ISR, POINTER);
    assert_eq!(by_isr(&[GONE]), Some((true, b"gone".to_vec())));
    assert_eq!(by_isr(&[GONE, LIVE]), Some((false, b"live".to_vec())));
    assert_eq!(by_isr(&[ELSEWHERE]), None);
    assert_eq!(by_isr(&[(1, 1, ISR, b"none")]), None);
}

/// Not even where a removed thread has the pointer of "init".
#[test]
fn an_init_event_has_no_name() {
    let buffer = dump(&[(1, 1, INIT, b"none"), GONE]);
    assert_eq!(find_name(&buffer, INIT), Ok(gone(b"none")));
    assert_eq!(name_of_event(&buffer, INIT, POINTER), None);
    assert_eq!(name_of_event(&buffer, INIT, INIT), None);
    let line = line_of_event(&buffer, INIT, POINTER);
    assert_eq!(line, r#""by":"init","name":null,"gone":false"#);
}

#[test]
fn the_line_says_gone_behind_the_name() {
    for (entries, expected) in [
        (&[LIVE, GONE], r#""name":"live","gone":false"#),
        (&[GONE, LIVE], r#""name":"live","gone":false"#),
        (&[FRESH, GONE], r#""name":"gone","gone":true"#),
        (&[FRESH, ELSEWHERE], r#""name":null,"gone":false"#),
    ] {
        let dump = dump(entries);
        let by_thread = line_of_event(&dump, POINTER, 16);
        assert_eq!(by_thread, format!(r#""by":"thread",{}"#, expected));
        let by_isr = line_of_event(&dump, ISR, POINTER);
        assert_eq!(by_isr, format!(r#""by":"isr",{}"#, expected));
    }
}

/// An empty name is a name, and a full one has no zero byte.
#[test]
fn names_of_every_length() {
    for length in 0..=4 {
        let mut buffer = formatted(1);
        register(&mut buffer, &thread(POINTER, &b"pump"[..length])).unwrap();
        remove(&mut buffer, POINTER).unwrap();
        assert_eq!(found(&buffer), gone(&b"pump"[..length]));
    }
    let empty = dump(&[(1, 1, POINTER, b"\0old")]);
    assert_eq!(found(&empty), gone(b""));
    let line = line_of_event(&empty, POINTER, 16);
    assert_eq!(line, r#""by":"thread","name":"","gone":true"#);
}

/// The name is a part of the dump, at its entry.
#[test]
fn the_part_handed_back_is_as_before() {
    let buffer = dump(&[FRESH, LATER, GONE]);
    let name = found(&buffer).unwrap().bytes;
    assert_eq!(name.as_ptr(), buffer[48 + 20 + 16..].as_ptr());
    let buffer = dump(&[LATER, GONE, LIVE]);
    let name = found(&buffer).unwrap().bytes;
    assert_eq!(name.as_ptr(), buffer[48 + 40 + 16..].as_ptr());
}

/// Registering uses the lowest free entry, whoever was in it.
#[test]
fn a_reused_entry_forgets() {
    let mut buffer = formatted(1);
    register(&mut buffer, &thread(POINTER, b"pump")).unwrap();
    remove(&mut buffer, POINTER).unwrap();
    assert_eq!(register(&mut buffer, &thread(OTHER, b"fan")), Ok(0));
    assert_eq!(found(&buffer), None);
    assert_eq!(find_name(&buffer, OTHER), Ok(live(b"fan")));
    remove(&mut buffer, OTHER).unwrap();
    assert_eq!(register(&mut buffer, &thread(POINTER, b"tap")), Ok(0));
    assert_eq!(found(&buffer), live(b"tap"));
    assert_eq!(find_name(&buffer, OTHER), Ok(None));
}

#[test]
fn a_pointer_that_comes_back() {
    let mut buffer = formatted(2);
    register(&mut buffer, &thread(OTHER, b"fan")).unwrap();
    register(&mut buffer, &thread(POINTER, b"old")).unwrap();
    remove(&mut buffer, POINTER).unwrap();
    remove(&mut buffer, OTHER).unwrap();
    assert_eq!(register(&mut buffer, &thread(POINTER, b"new")), Ok(0));
    assert_eq!(found(&buffer), live(b"new"));
    assert_eq!(remove(&mut buffer, POINTER), Ok(0));
    assert_eq!(found(&buffer), gone(b"new"));
    assert_eq!(register(&mut buffer, &thread(OTHER, b"fan")), Ok(0));
    assert_eq!(found(&buffer), gone(b"old"));
    assert_eq!(remove(&mut buffer, POINTER), Err(Refusal::new(22)));
}

#[test]
fn a_removed_object_that_was_no_thread() {
    let mut buffer = formatted(2);
    register(&mut buffer, &object(2, POINTER, b"lock")).unwrap();
    assert_eq!(found(&buffer), None);
    remove(&mut buffer, POINTER).unwrap();
    assert_eq!(found(&buffer), None);
}

/// Checks 1 to 11: a type not allowed is refused in an entry in use alone, and the slots are not looked at.
#[test]
fn refusals_stay() {
    for kind in [0, 15, 20, 29, 0xFF] {
        let in_use = dump(&[GONE, (0, kind, OTHER, b"what")]);
        assert_eq!(find_name(&in_use, POINTER), Err(Refusal::at(11, 1)));
        let free = dump(&[GONE, (1, kind, OTHER, b"what")]);
        assert_eq!(found(&free), gone(b"gone"));
    }
    let mut broken = dump(&[GONE]);
    broken[48 + 20 + 32..].fill(7);
    assert_eq!(check(&broken), Err(Refusal::at(12, 1)));
    assert_eq!(found(&broken), gone(b"gone"));
}

/// What a mender frees for its type is no thread.
#[test]
fn a_mended_entry_names_nobody() {
    let broken = dump(&[(0, 15, POINTER, b"what"), LATER]);
    let mut copy = vec![0; broken.len()];
    assert_eq!(mend(&broken, &mut copy).unwrap().types, 1);
    assert_eq!(found(&copy), gone(b"late"));
}

#[test]
fn the_printed_replies() {
    let printed = |entries: &[Entry], call: call::Call| {
        let mut buffer = dump(entries);
        record(&mut buffer, &[ISR, POINTER, 5, 0, 1, 2, 3, 4]).unwrap();
        let mut printed = Vec::new();
        print_reply(&answers::answer(&mut buffer, &mut [], &call), &mut printed);
        String::from_utf8(printed).unwrap()
    };
    let named = |entries: &[Entry]| printed(entries, call::Call::FindName { pointer: POINTER });
    assert_eq!(named(&[FRESH, GONE]), "\"gone\" gone 4 84\n");
    assert_eq!(named(&[LIVE, GONE]), "\"live\" live 4 64\n");
    assert_eq!(named(&[FRESH]), "null 0\n");
    assert_eq!(named(&[(0, 0, 0, b"what")]), "11 0 0\n");
    let event = |entries: &[Entry]| printed(entries, call::Call::Event { position: 0 });
    let words = "4294967295 536875008 5 0 1 2 3 4 0 isr";
    assert_eq!(event(&[GONE]), format!("{} \"gone\" gone\n", words));
    assert_eq!(event(&[LIVE]), format!("{} \"live\" live\n", words));
    assert_eq!(event(&[FRESH]), format!("{} null\n", words));
}
