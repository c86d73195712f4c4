//! Mending, worked out by hand: small dumps and their copies, byte for byte.

use peer::*;

type Entry = [u8; 20];

/// A free entry and a thread in use.
const ENTRIES: [Entry; 2] = [
    [1, 0, 7, 7, 9, 9, 9, 9, 8, 8, 8, 8, 6, 6, 6, 6, 5, 5, 5, 5],
    *b"\x00\x01\x10\x00\xA1\xA1\xA1\xA1\x01\x02\x03\x04\x05\x06\x07\x08pump",
];

/// A letter is a slot: A, B or C a used one, a, b or c the same made unused, 1, 2 or 3 the same without its id, a dot zeros.
fn slots(letters: &str) -> Vec<u8> {
    letters.bytes().flat_map(slot).collect()
}

fn slot(letter: u8) -> [u8; 32] {
    let mut slot = match letter {
        b'A' | b'a' | b'1' => [0xA1; 32],
        b'B' | b'b' | b'2' => [0xB2; 32],
        b'C' | b'c' | b'3' => [0xC3; 32],
        _ => [0; 32],
    };
    match letter {
        b'a'..=b'c' => slot[..4].fill(0),
        b'1'..=b'3' => slot[8..12].fill(0),
        _ => {}
    }
    slot
}

/// Little-endian, base 0x20000000: two entries end at 88, three slots at 184. Current is an offset.
fn dump(current: u8, entries: [Entry; 2], letters: &str) -> Vec<u8> {
    let mut bytes = vec![0x42, 0x54, 0x58, 0x54, 0xFF, 0xFF, 0, 0];
    bytes.extend_from_slice(&[0, 0, 0, 0x20, 48, 0, 0, 0x20]);
    bytes.extend_from_slice(&[0xAA, 0xAB, 4, 0, 88, 0, 0, 0x20]);
    bytes.extend_from_slice(&[88, 0, 0, 0x20, 184, 0, 0, 0x20]);
    bytes.extend_from_slice(&[current, 0, 0, 0x20]);
    bytes.extend_from_slice(&[0xBA, 0xBB, 0xBC, 0xBD, 0xCA, 0xCB, 0xCC, 0xCD]);
    bytes.extend_from_slice(&[0xDA, 0xDB, 0xDC, 0xDD]);
    bytes.extend(entries.concat());
    bytes.extend(slots(letters));
    bytes
}

fn refused<T>(number: u32, place: usize) -> Result<T, Refusal> {
    Err(Refusal { number, place })
}

/// The copy and the six counts, with 20 bytes more room than the copy needs, which must stay.
fn mended(dump: &[u8]) -> (Vec<u8>, [usize; 6]) {
    let mut output = vec![b'.'; 204];
    let mended = mend(dump, &mut output).unwrap();
    assert_eq!(mended.length, 184);
    assert_eq!(output[184..], [b'.'; 20]);
    output.truncate(184);
    (output, mended.counts())
}

/// Current and the slots, how many bytes of the dump there are, then current and the slots of the copy, and the counts.
type Example = (u8, &'static str, usize, u8, &'static str, [usize; 6]);

const SOUND: [Example; 5] = [
    (120, "ABC", 184, 120, "ABC", [0; 6]),
    (88, "ABC", 184, 88, "ABC", [0; 6]),
    (152, "AB.", 184, 152, "AB.", [0; 6]),
    (120, "Abc", 184, 120, "Abc", [0; 6]),
    (88, "...", 184, 88, "...", [0; 6]),
];

/// A ring that has gone round, from its second slot on; at the end, missing slots that were unused or had no id.
const MISSING: [Example; 9] = [
    (120, "ABC", 183, 152, "BA.", [1, 0, 0, 0, 1, 2]),
    (120, "ABC", 153, 152, "BA.", [1, 0, 0, 0, 1, 2]),
    (120, "ABC", 152, 152, "BA.", [1, 0, 0, 0, 1, 2]),
    (120, "ABC", 151, 120, "A..", [2, 0, 0, 0, 0, 0]),
    (120, "ABC", 120, 120, "A..", [2, 0, 0, 0, 0, 0]),
    (120, "ABC", 119, 88, "...", [3, 0, 0, 0, 1, 0]),
    (120, "ABC", 88, 88, "...", [3, 0, 0, 0, 1, 0]),
    (152, "ABc", 183, 152, "AB.", [1, 0, 0, 0, 0, 0]),
    (152, "AB3", 183, 152, "AB.", [1, 0, 0, 0, 0, 0]),
];

/// Before the slots, off a slot and behind them, in full, part-full and empty rings.
const CURRENT: [Example; 7] = [
    (56, "ABC", 184, 88, "ABC", [0, 1, 0, 0, 0, 0]),
    (121, "ABC", 184, 88, "ABC", [0, 1, 0, 0, 0, 0]),
    (184, "ABC", 184, 88, "ABC", [0, 1, 0, 0, 0, 0]),
    (184, "AB.", 184, 152, "AB.", [0, 1, 0, 0, 1, 0]),
    (87, "Abc", 184, 120, "A..", [0, 1, 0, 0, 1, 0]),
    (216, "...", 184, 88, "...", [0, 1, 0, 0, 0, 0]),
    (104, ".b.", 184, 88, ".b.", [0, 1, 0, 0, 0, 0]),
];

const IDS: [Example; 5] = [
    (152, "AB3", 184, 152, "AB.", [0, 0, 0, 1, 0, 0]),
    (120, "A2C", 184, 152, "CA.", [0, 0, 0, 1, 1, 2]),
    (120, "1BC", 184, 152, "BC.", [0, 0, 0, 1, 1, 2]),
    (88, "12C", 184, 120, "C..", [0, 0, 0, 2, 1, 1]),
    (120, "123", 184, 88, "...", [0, 0, 0, 3, 1, 0]),
];

const PACKED: [Example; 9] = [
    (88, "aBC", 184, 152, "BC.", [0, 0, 0, 0, 1, 2]),
    (88, "AbC", 184, 152, "AC.", [0, 0, 0, 0, 1, 1]),
    (120, "AbC", 184, 152, "CA.", [0, 0, 0, 0, 1, 2]),
    (152, "AbC", 184, 152, "CA.", [0, 0, 0, 0, 1, 2]),
    (88, "ABc", 184, 152, "AB.", [0, 0, 0, 0, 1, 0]),
    (120, "ABc", 184, 152, "BA.", [0, 0, 0, 0, 1, 2]),
    (152, "Abc", 184, 120, "A..", [0, 0, 0, 0, 1, 0]),
    (152, "abC", 184, 120, "C..", [0, 0, 0, 0, 1, 1]),
    (120, "a..", 184, 88, "...", [0, 0, 0, 0, 1, 0]),
];

const SEVERAL: [Example; 2] = [
    (99, "1BC", 183, 120, "B..", [1, 1, 0, 1, 1, 1]),
    (120, "A2C", 152, 120, "A..", [1, 0, 0, 1, 0, 0]),
];

#[test]
fn copies_by_hand() {
    let some: [&[Example]; 6] = [&SOUND, &MISSING, &CURRENT, &IDS, &PACKED, &SEVERAL];
    for (current, letters, length, current_after, letters_after, counts) in some.concat() {
        let given = dump(current, ENTRIES, letters);
        let expected = dump(current_after, ENTRIES, letters_after);
        assert_eq!(mended(&given[..length]), (expected, counts));
    }
}

#[test]
fn each_flag_and_type() {
    let sound = dump(88, ENTRIES, "ABC");
    for flag in 0..=255 {
        for kind in 0..=255 {
            let allowed = (1..=14).contains(&kind) || (21..=28).contains(&kind);
            let wrong = flag != 1 && !allowed;
            let mut given = sound.clone();
            given[68..70].copy_from_slice(&[flag, kind]);
            let mut expected = given.clone();
            expected[68] = if wrong { 1 } else { flag };
            let counts = [0, 0, usize::from(wrong), 0, 0, 0];
            assert_eq!(mended(&given), (expected, counts));
        }
    }
}

#[test]
fn all_six_at_once() {
    let mut given = dump(200, ENTRIES, "1BC");
    given[48..50].copy_from_slice(&[0xFF, 20]);
    given[68..70].copy_from_slice(&[0, 29]);
    given.truncate(180);
    let mut expected = dump(120, ENTRIES, "B..");
    expected[48..50].copy_from_slice(&[1, 20]);
    expected[68..70].copy_from_slice(&[1, 29]);
    assert_eq!(mended(&given), (expected, [1, 1, 2, 1, 1, 1]));
}

/// Big-endian, three slots as before: at the top of memory, where their end is 0, and around it, where they start at 8.
#[test]
fn pointers_wrap() {
    // The base, then the three slots.
    let top: [u32; 4] = [0xFFFF_FF48, 0xFFFF_FFA0, 0xFFFF_FFC0, 0xFFFF_FFE0];
    let around: [u32; 4] = [0xFFFF_FFB0, 8, 40, 72];
    for [base, first, second, third] in [top, around] {
        let plan = Plan {
            order: ByteOrder::Big,
            base,
            mask: 0xFFFF,
            name_size: 4,
            entries: 2,
        };
        let mut empty = vec![0; 184];
        assert_eq!(format(&mut empty, &plan), Ok(3));
        let dump = |current: u32, letters: &str| {
            let mut dump = empty.clone();
            dump[32..36].copy_from_slice(&current.to_be_bytes());
            dump[88..].copy_from_slice(&slots(letters));
            dump
        };
        let before = [first - 1, first.wrapping_sub(32)];
        let behind = [third + 1, third.wrapping_add(32)];
        for bad in [before, behind].concat() {
            let expected = dump(first, "ABC");
            assert_eq!(mended(&dump(bad, "ABC")), (expected, [0, 1, 0, 0, 0, 0]));
        }
        let expected = dump(third, "BA.");
        assert_eq!(mended(&dump(second, "ABc")), (expected, [0, 0, 0, 0, 1, 2]));
        let expected = dump(second, "B..");
        assert_eq!(mended(&dump(third, "aBc")), (expected, [0, 0, 0, 0, 1, 1]));
    }
}

#[test]
fn the_copy_ends_at_the_buffer_end() {
    let sound = dump(120, ENTRIES, "ABC");
    let mut longer = sound.clone();
    longer.extend_from_slice(&[0xEE; 100]);
    assert_eq!(mended(&longer), (sound, [0; 6]));
    longer.resize(65_536, 0xEE);
    assert_eq!(mended(&longer).1, [0; 6]);
    longer.push(0xEE);
    assert_eq!(mend(&longer, &mut [0; 184]), refused(2, 0));
}

/// Name size 4 and four entries: 2,044 slots from 128 on end at 65,536, and four of them are there.
#[test]
fn the_largest_copy() {
    let plan = Plan {
        order: ByteOrder::Little,
        base: 0,
        mask: 1,
        name_size: 4,
        entries: 4,
    };
    let mut dump = vec![0; 256];
    assert_eq!(format(&mut dump, &plan), Ok(4));
    dump[28..32].copy_from_slice(&65_536_u32.to_le_bytes());
    dump[128..].copy_from_slice(&slots("ABCA"));
    let mut copy = vec![b'.'; 65_537];
    let mended = mend(&dump, &mut copy).unwrap();
    assert_eq!(mended.length, 65_536);
    assert_eq!(mended.counts(), [2_040, 0, 0, 0, 1, 0]);
    dump[32..36].copy_from_slice(&256_u32.to_le_bytes());
    assert_eq!(copy[..256], dump);
    assert!(copy[256..65_536].iter().all(|&byte| byte == 0));
    assert_eq!(copy[65_536], b'.');
    dump[28..32].copy_from_slice(&65_568_u32.to_le_bytes());
    assert_eq!(mend(&dump, &mut copy), refused(9, 0));
}

/// Each check that still refuses, by the byte that is wrong; the room is too small as well.
#[test]
fn checks_1_to_9_refuse_first() {
    let sound = dump(0, [[0; 20]; 2], "1.C");
    for (number, at, byte) in [
        (3, 0, 0x43),
        (4, 4, 0xFE),
        (5, 18, 6),
        (6, 12, 49),
        (7, 20, 89),
        (8, 24, 120),
        (9, 28, 88),
        (9, 28, 185),
        (9, 30, 1),
    ] {
        let mut dump = sound.clone();
        dump[at] = byte;
        for room in [0, 183, 184, 300] {
            let mut output = vec![b'.'; room];
            assert_eq!(mend(&dump, &mut output), refused(number, 0));
            assert_eq!(output, vec![b'.'; room]);
        }
    }
    for (length, refusal) in [(0, (1, 0)), (47, (1, 0)), (48, (26, 40)), (87, (26, 1))] {
        let mut output = [b'.'; 200];
        let (number, place) = refusal;
        assert_eq!(mend(&sound[..length], &mut output), refused(number, place));
        assert_eq!(output, [b'.'; 200]);
        assert_eq!(mend(&sound[..length], &mut []), refused(number, place));
    }
}

#[test]
fn room_is_tested_last() {
    let broken = dump(0, [[0; 20]; 2], "1.C");
    for length in [88, 100, 183, 184] {
        for room in [0, 1, 88, length - 1, 183] {
            let mut output = vec![b'.'; room];
            assert_eq!(mend(&broken[..length], &mut output), refused(16, 0));
            assert_eq!(output, vec![b'.'; room]);
        }
        let mended = mend(&broken[..length], &mut [b'.'; 184]).unwrap();
        assert_eq!(mended.length, 184);
    }
    let sound = dump(120, ENTRIES, "ABC");
    assert_eq!(mend(&sound, &mut [0; 183]), refused(16, 0));
    let mut output = [0; 184];
    assert_eq!(mend(&sound, &mut output).unwrap().counts(), [0; 6]);
    assert_eq!(output[..], sound);
}
