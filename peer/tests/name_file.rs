//! Names from the build, read: each sentence of request A7, at both sides.

use peer::*;

const POINTER: u32 = 0x2000_1000;
const OTHER: u32 = 0x2000_2000;
const INIT: u32 = 0xF0F0_F0F0;
const ISR: u32 = 0xFFFF_FFFF;

const ORDERS: [ByteOrder; 2] = [ByteOrder::Little, ByteOrder::Big];

/// The events of 01's whole case that are listed.
const EVENTS: [[u32; 8]; 3] = [
    [POINTER, 16, 5, 65_500, 1, 2, 3, 4],
    [ISR, POINTER, 1025, 20, 0, 0, 0, 0],
    [OTHER, 16, 6, 20, 7, 0, 0, 0],
];

/// 01's whole case but for its first write.
fn whole(order: ByteOrder) -> Vec<u8> {
    dump(order, &EVENTS)
}

/// A thread named pump in the only entry, and the events.
fn dump(order: ByteOrder, events: &[[u32; 8]]) -> Vec<u8> {
    let plan = Plan {
        order,
        base: 0x2000_0000,
        mask: 0xFFFF,
        name_size: 8,
        entries: 1,
    };
    let mut buffer = vec![0; 48 + 24 + 32 * 3];
    assert_eq!(format(&mut buffer, &plan), Ok(3));
    let thread = Object {
        kind: 1,
        pointer: POINTER,
        parameters: [0, 0],
        reserved: [0, 0],
        name: b"pump",
    };
    register(&mut buffer, &thread).unwrap();
    for words in events {
        record(&mut buffer, words).unwrap();
    }
    buffer
}

fn removed(mut buffer: Vec<u8>) -> Vec<u8> {
    remove(&mut buffer, POINTER).unwrap();
    buffer
}

/// A record by its kind and its bytes.
fn part(kind: u16, bytes: &[u8]) -> Vec<u8> {
    let length = bytes.len() as u16;
    [&length.to_le_bytes(), &kind.to_le_bytes(), bytes].concat()
}

fn named(kind: u16, number: u32, name: &[u8]) -> Vec<u8> {
    part(kind, &[&number.to_le_bytes(), name].concat())
}

fn live(bytes: &[u8]) -> Option<Name<'_>> {
    let kind = NameKind::Live;
    Some(Name { bytes, kind })
}

fn gone(bytes: &[u8]) -> Option<Name<'_>> {
    let kind = NameKind::Gone;
    Some(Name { bytes, kind })
}

fn filed(bytes: &[u8]) -> Option<Name<'_>> {
    let kind = NameKind::Filed;
    Some(Name { bytes, kind })
}

/// The own name of the event at a position of the whole case.
fn own_name(names: &[u8], position: usize) -> Option<Vec<u8>> {
    let dump = whole(ByteOrder::Little);
    let event = event_with_names(&dump, names, position).unwrap();
    let name = event.event_name.unwrap()?;
    assert_eq!(name.kind, NameKind::Filed);
    Some(name.bytes.to_vec())
}

/// What finding a name gives for the pointer that the dump does not name.
fn found(names: &[u8]) -> Option<Vec<u8>> {
    let dump = whole(ByteOrder::Big);
    let name = find_name_with_names(&dump, names, OTHER).unwrap()?;
    assert_eq!(name.kind, NameKind::Filed);
    Some(name.bytes.to_vec())
}

/// How the file is refused, which is the same by every call.
fn refusal(names: &[u8]) -> Option<Refusal> {
    let dump = whole(ByteOrder::Big);
    let reading = Reading::new(1, 0, 0);
    let mut output = vec![0; 500_000];
    let refused = find_name_with_names(&dump, names, OTHER).err();
    assert_eq!(event_with_names(&dump, names, 2).err(), refused);
    let line = line_with_names(&dump, names, &reading, 2, &mut output);
    assert_eq!(line.err(), refused);
    let listing = listing_with_names(&dump, names, &reading, &mut output);
    assert_eq!(listing.err(), refused);
    refused
}

fn listed(dump: &[u8], names: &[u8]) -> String {
    let mut output = [0; 2_000];
    let reading = Reading::new(3_000_000, 8192, 0);
    let length = listing_with_names(dump, names, &reading, &mut output).unwrap();
    assert!(output[length..].iter().all(|&byte| byte == 0));
    String::from_utf8(output[..length].to_vec()).unwrap()
}

#[test]
fn the_whole_case_with_a_file() {
    let names = [named(1, 5, b"send"), named(2, OTHER, b"valve")].concat();
    let expected = concat!(
        r#"{"key":"9007199254740992","ticks":0,"us":0,"id":5,"event":"send","ptr":536875008,"by":"thread","name":"pump","gone":false,"field":16,"info":[1,2,3,4]}"#,
        "\n",
        r#"{"key":"9007199254740993","ticks":56,"us":18,"id":1025,"event":null,"ptr":4294967295,"by":"isr","name":"pump","gone":false,"field":536875008,"info":[0,0,0,0]}"#,
        "\n",
        r#"{"key":"9007199254740994","ticks":56,"us":18,"id":6,"event":null,"ptr":536879104,"by":"thread","name":"valve","gone":false,"field":16,"info":[7,0,0,0]}"#,
        "\n",
    );
    for order in ORDERS {
        assert_eq!(listed(&whole(order), &names), expected);
    }
}

/// Behind "id" and nowhere else.
#[test]
fn an_empty_file_adds_event_null() {
    for order in ORDERS {
        let dump = whole(order);
        let mut output = [0; 2_000];
        let reading = Reading::new(3_000_000, 8192, 0);
        let length = listing(&dump, &reading, &mut output).unwrap();
        let without = String::from_utf8(output[..length].to_vec()).unwrap();
        assert!(!without.contains("event"));
        let with = without.replace(",\"ptr\"", ",\"event\":null,\"ptr\"");
        assert_eq!(listed(&dump, &[]), with);
    }
}

/// By hand: a length of 9, the kind 1, the id 5, five bytes; then 6, 2, a pointer and two bytes.
#[test]
fn the_bytes_of_a_file() {
    let names = b"\x09\0\x01\0\x05\0\0\0send\0\x06\0\x02\0\0\x20\0\x20up";
    assert_eq!(own_name(names, 0), Some(b"send\0".to_vec()));
    assert_eq!(found(names), Some(b"up".to_vec()));
    let big_endian = b"\0\x09\0\x01\0\0\0\x05send\0";
    assert_eq!(refusal(big_endian), Some(Refusal::at(27, 0)));
}

#[test]
fn the_first_record_counts() {
    let names = [
        named(1, 5, b"first"),
        named(2, OTHER, b"one"),
        named(1, 5, b"second"),
        named(2, OTHER, b"two"),
    ]
    .concat();
    assert_eq!(own_name(&names, 0), Some(b"first".to_vec()));
    assert_eq!(found(&names), Some(b"one".to_vec()));
    let empty_first = [named(1, 5, b""), named(1, 5, b"second")].concat();
    assert_eq!(own_name(&empty_first, 0), Some(Vec::new()));
}

/// An id is sought among the events' records alone, a pointer among the threads'.
#[test]
fn the_two_kinds_are_apart() {
    let swapped = [named(2, 5, b"thread"), named(1, OTHER, b"event")].concat();
    assert_eq!(own_name(&swapped, 0), None);
    assert_eq!(found(&swapped), None);
    let both = [swapped, named(1, 5, b"send"), named(2, OTHER, b"valve")].concat();
    assert_eq!(own_name(&both, 0), Some(b"send".to_vec()));
    assert_eq!(found(&both), Some(b"valve".to_vec()));
}

#[test]
fn other_numbers_do_not_match() {
    for bit in 0..32 {
        let names = [
            named(1, 5 ^ 1 << bit, b"near"),
            named(2, OTHER ^ 1 << bit, b"near"),
        ]
        .concat();
        assert_eq!(own_name(&names, 0), None);
        assert_eq!(found(&names), None);
    }
}

/// Of any length, 0 too, and whatever they hold.
#[test]
fn other_kinds_are_stepped_over() {
    for kind in [
        0, 3, 4, 0x00FF, 0x0100, 0x0101, 0x0200, 0x0201, 0x8001, 0xFFFF,
    ] {
        for length in 0..12 {
            let other = part(kind, &b"\x05\0\0\0send now"[..length]);
            let names = [other.clone(), named(1, 5, b"send"), other].concat();
            assert_eq!(own_name(&names, 0), Some(b"send".to_vec()));
        }
    }
}

#[test]
fn a_name_runs_to_the_record_end() {
    for name in [&b""[..], b"\0", b"\0\0\0", b"a\0b", b"ab\0", b"\0ab"] {
        let names = [named(1, 5, name), named(2, OTHER, name), part(0, b"")].concat();
        assert_eq!(own_name(&names, 0), Some(name.to_vec()));
        assert_eq!(found(&names), Some(name.to_vec()));
    }
}

/// As any name: 20 to 7E stand for themselves, but for the quote and the backslash.
#[test]
fn every_byte_of_a_name_is_printed() {
    let dump = whole(ByteOrder::Little);
    for byte in 0..=255u8 {
        let text = match byte {
            b'"' => "\\\"".to_string(),
            b'\\' => "\\\\".to_string(),
            0x20..=0x7E => (byte as char).to_string(),
            _ => format!("\\u00{:02x}", byte),
        };
        let names = [named(1, 6, &[byte]), named(2, OTHER, &[byte, byte])].concat();
        let lines = listed(&dump, &names);
        let event = format!(r#""id":6,"event":"{}","ptr""#, text);
        let thread = format!(r#""name":"{}{}","gone":false"#, text, text);
        assert!(lines.contains(&event), "{}", lines);
        assert!(lines.contains(&thread), "{}", lines);
    }
}

/// Three records, of 8, 9 and 10 bytes: a file that ends within one is refused with that one's offset.
#[test]
fn a_cut_file() {
    let names = [named(1, 5, b""), part(7, b"seven"), named(2, OTHER, b"up")].concat();
    assert_eq!(names.len(), 27);
    for length in 0..=27 {
        let expected = match length {
            0 | 8 | 17 | 27 => None,
            1..=7 => Some(Refusal::at(27, 0)),
            9..=16 => Some(Refusal::at(27, 8)),
            _ => Some(Refusal::at(27, 17)),
        };
        assert_eq!(refusal(&names[..length]), expected, "{} bytes", length);
    }
}

#[test]
fn a_record_with_no_room_for_its_number() {
    for length in 0..=5 {
        for kind in [1, 2] {
            let names = [part(3, b""), part(kind, &vec![0; length])].concat();
            let expected = (length < 4).then(|| Refusal::at(27, 4));
            assert_eq!(refusal(&names), expected, "{} bytes", length);
        }
    }
}

/// The lowest, whichever of the two faults it has.
#[test]
fn the_lowest_fault_counts() {
    let short = part(2, b"abc");
    let sound = named(1, 5, b"send");
    let both = [sound.clone(), short.clone(), sound[..5].to_vec()].concat();
    assert_eq!(refusal(&both), Some(Refusal::at(27, 12)));
    let cut = [sound.clone(), sound[..11].to_vec()].concat();
    assert_eq!(refusal(&cut), Some(Refusal::at(27, 12)));
    let two = [short.clone(), sound, short].concat();
    assert_eq!(refusal(&two), Some(Refusal::at(27, 0)));
}

/// Four zeros are a record of kind 0 with no bytes.
#[test]
fn the_largest_file() {
    assert_eq!(refusal(&vec![0; 65_532]), None);
    assert_eq!(refusal(&vec![0; 65_535]), Some(Refusal::at(27, 65_532)));
    assert_eq!(refusal(&vec![0; 65_536]), None);
    assert_eq!(refusal(&vec![0; 65_537]), Some(Refusal::new(2)));
    assert_eq!(refusal(&vec![0xFF; 65_537]), Some(Refusal::new(2)));
    assert_eq!(refusal(&vec![0xFF; 65_536]), Some(Refusal::at(27, 0)));
}

/// One record over the whole file.
#[test]
fn the_longest_record() {
    for kind in [1, 2, 3] {
        for (length, end) in [(65_531, 65_535), (65_532, 65_536), (65_533, 65_537)] {
            let mut names = vec![0; 65_536];
            names[..2].copy_from_slice(&(length as u16).to_le_bytes());
            names[2] = kind;
            let expected = match end {
                65_535 => Some(Refusal::at(27, 65_535)),
                65_536 => None,
                _ => Some(Refusal::at(27, 0)),
            };
            assert_eq!(refusal(&names), expected, "kind {}, {}", kind, length);
        }
    }
    let name = vec![b'x'; 65_528];
    let names = named(2, OTHER, &name);
    assert_eq!(names.len(), 65_536);
    assert_eq!(refusal(&names), None);
    assert_eq!(found(&names), Some(name));
}

#[test]
fn the_dump_comes_first() {
    let names = [named(2, POINTER, b"filed"), named(2, OTHER, b"valve")].concat();
    for order in ORDERS {
        let dump = whole(order);
        let found = |pointer| find_name_with_names(&dump, &names, pointer).unwrap();
        assert_eq!(found(POINTER), live(b"pump"));
        assert_eq!(found(OTHER), filed(b"valve"));
        assert_eq!(found(OTHER + 1), None);
        let dump = removed(whole(order));
        let found = |pointer| find_name_with_names(&dump, &names, pointer).unwrap();
        assert_eq!(found(POINTER), gone(b"pump"));
        assert_eq!(found(OTHER), filed(b"valve"));
    }
}

#[test]
fn finding_a_name_matches_any_pointer() {
    let dump = whole(ByteOrder::Little);
    for pointer in [0, 1, 5, 16, INIT, ISR] {
        let names = named(2, pointer, b"any");
        let found = find_name_with_names(&dump, &names, pointer).unwrap();
        assert_eq!(found, filed(b"any"));
    }
}

/// The name of an event with the pointer and the field, where the file has both and all ids.
fn name_of(pointer: u32, field: u32, file: &[u32]) -> Option<(NameKind, Vec<u8>)> {
    let dump = dump(ByteOrder::Big, &[[pointer, field, 9, 0, 0, 0, 0, 0]]);
    let records = file.iter().map(|&number| named(2, number, b"filed"));
    let names: Vec<u8> = records.chain([named(1, 9, b"own")]).flatten().collect();
    let event = event_with_names(&dump, &names, 0).unwrap();
    // An event has its own name in any context.
    assert_eq!(event.event_name, Some(filed(b"own")));
    event.name.map(|name| (name.kind, name.bytes.to_vec()))
}

#[test]
fn the_context_says_what_is_sought() {
    let filed = Some((NameKind::Filed, b"filed".to_vec()));
    let live = Some((NameKind::Live, b"pump".to_vec()));
    assert_eq!(name_of(OTHER, 7, &[OTHER]), filed);
    assert_eq!(name_of(OTHER, 7, &[7]), None);
    assert_eq!(name_of(POINTER, OTHER, &[POINTER, OTHER]), live);
    assert_eq!(name_of(ISR, OTHER, &[OTHER]), filed);
    assert_eq!(name_of(ISR, OTHER, &[ISR]), None);
    assert_eq!(name_of(ISR, POINTER, &[POINTER, ISR]), live);
    assert_eq!(name_of(ISR, ISR, &[ISR]), filed);
    assert_eq!(name_of(INIT, OTHER, &[INIT, OTHER]), None);
    assert_eq!(name_of(INIT, POINTER, &[INIT, POINTER]), None);
}

/// A name from the file is nobody's who is gone, and one of a removed thread still is.
#[test]
fn the_line_says_gone_of_the_dump_alone() {
    let names = [named(2, POINTER, b"filed"), named(2, OTHER, b"valve")].concat();
    let lines = listed(&removed(whole(ByteOrder::Little)), &names);
    assert_eq!(lines.matches(r#""name":"pump","gone":true,"#).count(), 2);
    assert_eq!(lines.matches(r#""name":"valve","gone":false,"#).count(), 1);
}

#[test]
fn the_part_handed_back_lies_in_one_of_the_two() {
    let names = [
        named(1, 5, b""),
        named(2, OTHER, b"valve"),
        named(1, 6, b""),
    ]
    .concat();
    let dump = whole(ByteOrder::Little);
    let valve = find_name_with_names(&dump, &names, OTHER).unwrap().unwrap();
    assert_eq!(valve.bytes.as_ptr(), names[16..].as_ptr());
    let pump = find_name_with_names(&dump, &names, POINTER)
        .unwrap()
        .unwrap();
    assert_eq!(pump.bytes.as_ptr(), dump[64..].as_ptr());
    let event = event_with_names(&dump, &names, 2).unwrap();
    let own = event.event_name.unwrap().unwrap();
    assert_eq!(own.bytes.as_ptr(), names[29..].as_ptr());
    assert_eq!(own.bytes.len(), 0);
    assert_eq!(event.name, Some(valve));
}

/// Without a file there is no name of an event, nor a filed one.
#[test]
fn calls_without_a_file_stay() {
    let dump = whole(ByteOrder::Little);
    assert_eq!(event(&dump, 0).unwrap().event_name, None);
    assert_eq!(event(&dump, 2).unwrap().name, None);
    assert_eq!(find_name(&dump, OTHER), Ok(None));
    let empty = event_with_names(&dump, &[], 0).unwrap();
    assert_eq!(empty.event_name, Some(None));
}

#[test]
fn room_for_a_line_and_a_listing() {
    let names = [named(1, 5, &[0; 300]), named(2, OTHER, &[b'"'; 300])].concat();
    let dump = whole(ByteOrder::Big);
    let reading = Reading::new(1, 0, 0);
    let mut large = vec![0; 10_000];
    let lines = [0, 1, 2]
        .map(|position| line_with_names(&dump, &names, &reading, position, &mut large).unwrap());
    assert!(lines[0] > 1_800 && lines[2] > 600);
    let whole = listing_with_names(&dump, &names, &reading, &mut large).unwrap();
    assert_eq!(whole, lines.iter().sum());
    for (position, length) in lines.iter().enumerate() {
        let mut output = vec![7; *length];
        let room = &mut output[1..];
        let short = line_with_names(&dump, &names, &reading, position, room);
        assert_eq!(short, Err(Refusal::new(16)));
        assert_eq!(output, vec![7; *length]);
        let exact = line_with_names(&dump, &names, &reading, position, &mut output);
        assert_eq!(exact, Ok(*length));
    }
    let mut output = vec![7; whole];
    let short = listing_with_names(&dump, &names, &reading, &mut output[1..]);
    assert_eq!(short, Err(Refusal::new(16)));
    assert_eq!(output, vec![7; whole]);
    let exact = listing_with_names(&dump, &names, &reading, &mut output);
    assert_eq!(exact, Ok(whole));
}

/// The dump, 14, 15, the file's 2 and 27, 25, 16: each is given as long as none before it is.
#[test]
fn the_order_of_the_checks() {
    let sound = whole(ByteOrder::Little);
    let mut broken = sound.clone();
    broken[72 + 40..72 + 44].fill(0);
    let mut kinds = broken.clone();
    kinds[49] = 15;
    let short = sound[..47].to_vec();
    let cut = named(1, 5, b"send")[..11].to_vec();
    let files = [(0, Vec::new()), (2, vec![0; 65_537]), (27, cut)];
    for (number, dump) in [(0, &sound), (13, &broken), (11, &kinds), (1, &short)] {
        let place = if number == 13 { 1 } else { 0 };
        for (of_file, names) in &files {
            let rows = [(number, place), (*of_file, 0)];
            // Finding a name does not look at slots.
            let found = find_name_with_names(dump, names, POINTER);
            let expected = first(if number == 13 { &rows[1..] } else { &rows });
            assert_eq!(found.err(), expected);
            for set in 0..16 {
                compare(dump, names, &rows, set);
            }
        }
    }
}

/// The first row that refuses.
fn first(rows: &[(u32, usize)]) -> Option<Refusal> {
    let refused = rows.iter().find(|(number, _)| *number != 0);
    refused.map(|(number, place)| Refusal::at(*number, *place))
}

/// Each bit of the set breaks the rate, the unit, the position or the room.
fn compare(dump: &[u8], names: &[u8], rows: &[(u32, usize); 2], set: u32) {
    let broken = |bit: u32, number: u32| (number * (set >> bit & 1), 0);
    let (rate, unit) = (broken(0, 14), broken(1, 15));
    let (position, room) = (broken(2, 25), broken(3, 16));
    let reading = Reading::new(u32::from(rate.0 == 0), (unit.0 / 15) << 24, 0);
    let at = if position.0 == 0 { 2 } else { 3 };
    let mut output = vec![0; if room.0 == 0 { 1_000 } else { 100 }];
    let [of_dump, of_file] = *rows;
    let event = event_with_names(dump, names, at);
    assert_eq!(event.err(), first(&[of_dump, of_file, position]));
    let line = line_with_names(dump, names, &reading, at, &mut output);
    let order = [of_dump, rate, unit, of_file, position, room];
    assert_eq!(line.err(), first(&order));
    let listing = listing_with_names(dump, names, &reading, &mut output);
    let order = [of_dump, rate, unit, of_file, room];
    assert_eq!(listing.err(), first(&order));
}
