//! Names from the build, written: the record's bytes, 28 and 16 at both sides; and how cases, calls and replies with a name file look.

use peer::answers::answer;
use peer::call::{Call, Naming};
use peer::case::Case;
use peer::digest::digest;
use peer::filled::Filled;
use peer::print::{print_reply, print_title};
use peer::*;

fn thread(number: u32, name: &[u8]) -> NameRecord<'_> {
    let named = Named::Thread;
    NameRecord {
        named,
        number,
        name,
    }
}

fn event_record(number: u32, name: &[u8]) -> NameRecord<'_> {
    let named = Named::Event;
    NameRecord {
        named,
        number,
        name,
    }
}

/// One entry, which is free, and one event of the pointer.
fn dump(pointer: u32, id: u32) -> Vec<u8> {
    let plan = Plan {
        order: ByteOrder::Big,
        base: 0,
        mask: 0xFF,
        name_size: 4,
        entries: 1,
    };
    let mut buffer = vec![0; 48 + 20 + 32];
    format(&mut buffer, &plan).unwrap();
    record(&mut buffer, &[pointer, 16, id, 0, 1, 2, 3, 4]).unwrap();
    buffer
}

/// By hand: the length 8, the kind 1, the id 5, the name; and the length 4, the kind 2, a pointer, no name.
#[test]
fn the_bytes_of_a_record() {
    let mut file = vec![0xEE; 24];
    let send = event_record(5, b"send");
    assert_eq!(write_name(&mut file, 2, &send), Ok(12));
    assert_eq!(file[..2], [0xEE; 2]);
    assert_eq!(file[2..14], *b"\x08\0\x01\0\x05\0\0\0send");
    assert_eq!(file[14..], [0xEE; 10]);
    let nameless = thread(0x2000_10FE, b"");
    assert_eq!(write_name(&mut file, 14, &nameless), Ok(8));
    assert_eq!(file[2..14], *b"\x08\0\x01\0\x05\0\0\0send");
    assert_eq!(file[14..22], *b"\x04\0\x02\0\xFE\x10\0\x20");
    assert_eq!(file[22..], [0xEE; 2]);
}

/// Each goes where the one before it ended; what was written is what is read.
#[test]
fn records_one_after_another() {
    let mut file = vec![0; 8 + 13 + 11 + 8];
    let records = [
        event_record(7, b""),
        thread(9, b"valve"),
        event_record(8, b"\0\"\xFF"),
        event_record(7, b""),
    ];
    let mut offset = 0;
    for record in &records {
        offset += write_name(&mut file, offset, record).unwrap();
    }
    assert_eq!(offset, file.len());
    let (seven, eight) = (dump(9, 7), dump(3, 8));
    let event = event_with_names(&seven, &file, 0).unwrap();
    assert_eq!(event.event_name.unwrap().unwrap().bytes, b"");
    assert_eq!(event.name.unwrap().bytes, b"valve");
    let event = event_with_names(&eight, &file, 0).unwrap();
    assert_eq!(event.event_name.unwrap().unwrap().bytes, b"\0\"\xFF");
    assert_eq!(event.name, None);
    let more = write_name(&mut file, offset, &records[0]);
    assert_eq!(more, Err(Refusal::new(16)));
}

fn refused(length: usize, offset: usize, name: usize) -> Option<u32> {
    let mut file = vec![0xEE; length];
    let name = vec![b'n'; name];
    let given = write_name(&mut file, offset, &thread(5, &name));
    match given {
        Ok(written) => {
            let end = offset + written;
            assert_eq!(written, 8 + name.len());
            assert!(file[..offset].iter().all(|&byte| byte == 0xEE));
            assert!(file[end..].iter().all(|&byte| byte == 0xEE));
            assert_eq!(file[offset + 8..end], name);
            None
        }
        Err(refusal) => {
            assert!(file.iter().all(|&byte| byte == 0xEE));
            assert_eq!(refusal.place, 0);
            Some(refusal.number)
        }
    }
}

#[test]
fn past_the_buffer() {
    assert_eq!(refused(0, 0, 0), Some(16));
    assert_eq!(refused(7, 0, 0), Some(16));
    assert_eq!(refused(8, 0, 0), None);
    assert_eq!(refused(8, 1, 0), Some(16));
    assert_eq!(refused(20, 0, 12), None);
    assert_eq!(refused(20, 0, 13), Some(16));
    assert_eq!(refused(20, 8, 4), None);
    assert_eq!(refused(20, 9, 4), Some(16));
    assert_eq!(refused(20, 20, 0), Some(16));
    assert_eq!(refused(20, 21, 0), Some(16));
}

/// 28 comes before 16, and where the buffer is longer too.
#[test]
fn past_the_largest_file() {
    for length in [0, 20, 65_535] {
        assert_eq!(refused(length, 65_528, 0), Some(16));
        assert_eq!(refused(length, 65_529, 0), Some(28));
        assert_eq!(refused(length, 0, 65_528), Some(16));
        assert_eq!(refused(length, 0, 65_529), Some(28));
    }
    for length in [65_536, 65_537, 100_000] {
        assert_eq!(refused(length, 65_528, 0), None);
        assert_eq!(refused(length, 65_529, 0), Some(28));
        assert_eq!(refused(length, 0, 65_528), None);
        assert_eq!(refused(length, 0, 65_529), Some(28));
        assert_eq!(refused(length, 1, 65_528), Some(28));
        assert_eq!(refused(length, 65_000, 528), None);
        assert_eq!(refused(length, 65_000, 529), Some(28));
        assert_eq!(refused(length, 65_536, 0), Some(28));
        assert_eq!(refused(length, 90_000, 0), Some(28));
    }
}

/// Offsets whose end would be 0, or a small number, if it wrapped.
#[test]
fn any_offset() {
    for length in [0, 20, 65_536] {
        for back in 0..40 {
            assert_eq!(refused(length, usize::MAX - back, 4), Some(28));
            assert_eq!(refused(length, (1 << 32) - back, 4), Some(28));
            assert_eq!(refused(length, (1 << 63) - back, 4), Some(28));
        }
    }
}

fn printed(buffer: &[u8], names: &mut [u8], call: &Call) -> String {
    let mut printed = Vec::new();
    let reply = answer(&mut buffer.to_vec(), names, call);
    print_reply(&reply, &mut printed);
    String::from_utf8(printed).unwrap()
}

fn naming(offset: usize, name: &[u8]) -> Call {
    Call::WriteName(Naming {
        named: Named::Thread,
        number: 9,
        offset,
        name: Filled::new(name),
    })
}

#[test]
fn the_printed_replies() {
    let dump = dump(9, 7);
    let mut names = vec![0; 12];
    let find = |names: &mut [u8]| printed(&dump, names, &Call::FindNameWithNames { pointer: 9 });
    let event = |names: &mut [u8]| printed(&dump, names, &Call::EventWithNames { position: 0 });
    assert_eq!(find(&mut names), "null 0\n");
    assert_eq!(event(&mut names), "9 16 7 0 1 2 3 4 0 thread null null\n");
    let done = printed(&dump, &mut names, &naming(0, b"tap\0"));
    let written = b"\x08\0\x02\0\x09\0\0\0tap\0";
    assert_eq!(names, written);
    assert_eq!(done, format!("done 12 {}\n", digest(written)));
    assert_eq!(find(&mut names), "\"tap\\u0000\" filed 4 8\n");
    let event_line = "9 16 7 0 1 2 3 4 0 thread \"tap\\u0000\" filed null\n";
    assert_eq!(event(&mut names), event_line);
    let refused = printed(&dump, &mut names, &naming(1, b"tap\0"));
    assert_eq!(refused, format!("16 0 {}\n", digest(written)));
    let refused = printed(&dump, &mut names, &naming(65_525, b"tap\0"));
    assert_eq!(refused, format!("28 0 {}\n", digest(written)));
    names[2] = 1;
    names[4] = 7;
    let event_line = "9 16 7 0 1 2 3 4 0 thread null \"tap\\u0000\" filed\n";
    assert_eq!(event(&mut names), event_line);
    names[0] = 9;
    assert_eq!(find(&mut names), "27 0 0\n");
    assert_eq!(event(&mut names), "27 0\n");
}

#[test]
fn the_printed_title() {
    let mut printed = Vec::new();
    print_title("one", b"", b"", &mut printed);
    print_title("two", b"", b"\x02", &mut printed);
    assert_eq!(printed, b"one: 1 1\ntwo: 1 513\n");
}

/// Title, buffer, name file, calls, a dot.
#[test]
fn the_form_of_a_case() {
    let calls = vec![
        Call::WriteName(Naming {
            named: Named::Thread,
            number: 0x0403_0201,
            offset: usize::MAX - 1,
            name: Filled {
                length: 65_537,
                fill: b'x',
                given: b"ab".to_vec(),
            },
        }),
        Call::EventWithNames { position: 2 },
        Call::FindNameWithNames { pointer: 3 },
        Call::LineWithNames {
            reading: Reading::new(4, 5, 6),
            position: 7,
            room: 8,
        },
        Call::ListingWithNames {
            reading: Reading::new(4, 5, 6),
            room: 9,
        },
    ];
    let case = Case::new("t".to_string(), b"abb", b"cdee", calls);
    let mut file = Vec::new();
    case.encode(&mut file);
    let expected: [&[u8]; 13] = [
        b"\x01t",
        b"\x03\0\0\0b\x01\0\0\0a",
        b"\x04\0\0\0e\x02\0\0\0cd",
        b"r\x14\0\x01\x01\x02\x03\x04\xFE\xFF\xFF\xFF\xFF\xFF\xFF\xFF",
        b"\x01\0\x01\0xab",
        b"E\x08\0\x02\0\0\0\0\0\0\0",
        b"N\x04\0\x03\0\0\0",
        b"L\x1C\0\x04\0\0\0\x05\0\0\0\x06\0\0\0\0\0\0\0",
        b"\x07\0\0\0\0\0\0\0\x08\0\0\0",
        b"A\x14\0\x04\0\0\0\x05\0\0\0\x06\0\0\0\0\0\0\0",
        b"\x09\0\0\0",
        b".",
        b"",
    ];
    assert_eq!(file, expected.concat());
    assert_eq!(case.buffer(), b"abb");
    assert_eq!(case.names(), b"cdee");
}

/// An empty name file takes nine bytes.
#[test]
fn the_form_of_a_case_without_a_file() {
    let mut file = Vec::new();
    Case::new("t".to_string(), b"", b"", vec![Call::Check]).encode(&mut file);
    let empty = [0; 9];
    assert_eq!(file, [b"\x01t", &empty[..], &empty[..], b"c\0\0."].concat());
}
