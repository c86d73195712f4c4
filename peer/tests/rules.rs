//! The rules that document 01 states without numbers: places, entries, the ring, and what a write leaves alone.

use peer::*;

fn formatted(entries: usize, slots: usize) -> Vec<u8> {
    let mut buffer = vec![0xEE; 48 + 20 * entries + 32 * slots + 7];
    let plan = Plan {
        order: ByteOrder::Big,
        base: 0xFFFF_FFF0,
        mask: 0xFF,
        name_size: 4,
        entries,
    };
    assert_eq!(format(&mut buffer, &plan), Ok(slots));
    buffer
}

fn object(kind: u8, pointer: u32, name: &[u8]) -> Object<'_> {
    Object {
        kind,
        pointer,
        parameters: [1, 2],
        reserved: [3, 4],
        name,
    }
}

fn live(bytes: &[u8]) -> Option<Name<'_>> {
    Some(Name {
        bytes,
        kind: NameKind::Live,
    })
}

fn refused<T>(number: u32, place: usize) -> Result<T, Refusal> {
    Err(Refusal { number, place })
}

#[test]
fn formatting_leaves_the_rest() {
    let buffer = formatted(1, 1);
    assert_eq!(buffer[48..52], [1, 0, 0, 0]);
    assert_eq!(buffer[100..], [0xEE; 7]);
}

#[test]
fn registering_and_removing() {
    let mut buffer = formatted(2, 1);
    assert_eq!(register(&mut buffer, &object(1, 7, b"alarm")), Ok(0));
    assert_eq!(
        buffer[48..68],
        *b"\x00\x01\x03\x04\0\0\0\x07\0\0\0\x01\0\0\0\x02alar"
    );
    assert_eq!(register(&mut buffer, &object(28, 8, b"")), Ok(1));
    assert_eq!(buffer[68..72], [0, 28, 0, 0]);
    assert_eq!(find_name(&buffer, 8), Ok(None));
    assert_eq!(register(&mut buffer, &object(15, 8, b"\0")), refused(19, 0));
    assert_eq!(
        register(&mut buffer, &object(1, 8, b"alarm\0")),
        refused(23, 0)
    );
    assert_eq!(register(&mut buffer, &object(1, 8, b"")), refused(20, 1));
    assert_eq!(register(&mut buffer, &object(1, 9, b"")), refused(21, 0));
    assert_eq!(remove(&mut buffer, 7), Ok(0));
    assert_eq!(remove(&mut buffer, 7), refused(22, 0));
    assert_eq!(buffer[48..50], [1, 1]);
    assert_eq!(register(&mut buffer, &object(1, 9, b"")), Ok(0));
    assert_eq!(find_name(&buffer, 9), Ok(live(b"")));
}

#[test]
fn recording_cuts_the_stamp_and_goes_round() {
    let mut buffer = formatted(0, 2);
    for (count, slot) in [0, 1, 0].iter().enumerate() {
        let words = [5, 6, 7, 0x1234_5600 + count as u32, 1, 2, 3, 4];
        assert_eq!(record(&mut buffer, &words), Ok(*slot));
    }
    assert_eq!(event(&buffer, 0).unwrap().stamp, 1);
    assert_eq!(event(&buffer, 1).unwrap().stamp, 2);
    assert_eq!(record(&mut buffer, &[0; 8]), refused(17, 0));
    assert_eq!(
        record(&mut buffer, &[1, 0, 0, 0, 0, 0, 0, 0]),
        refused(18, 0)
    );
}

#[test]
fn places_of_damage() {
    let mut buffer = formatted(3, 3);
    record(&mut buffer, &[5; 8]).unwrap();
    record(&mut buffer, &[5; 8]).unwrap();
    let ring = 48 + 60;
    let mut damaged = buffer.clone();
    damaged[ring + 32 + 11] = 0;
    assert_eq!(check(&damaged), refused(13, 1));
    damaged[ring + 32 + 3] = 0;
    assert_eq!(check(&damaged), refused(12, 1));
    damaged[48 + 40] = 0;
    assert_eq!(check(&damaged), refused(11, 2));
    assert_eq!(find_name(&damaged, 0), refused(11, 2));
    assert_eq!(record(&mut damaged, &[5; 8]), Ok(2));
}

#[test]
fn context_decides_where_the_name_is_sought() {
    let mut buffer = formatted(2, 3);
    register(&mut buffer, &object(1, 0xF0F0_F0F0, b"one")).unwrap();
    register(&mut buffer, &object(1, 0xFFFF_FFFF, b"two")).unwrap();
    for (pointer, field) in [
        (0xF0F0_F0F0, 0xFFFF_FFFF),
        (u32::MAX, 0xF0F0_F0F0),
        (5, u32::MAX),
    ] {
        record(&mut buffer, &[pointer, field, 1, 0, 0, 0, 0, 0]).unwrap();
    }
    let seen: Vec<_> = (0..3)
        .map(|position| event(&buffer, position).unwrap())
        .collect();
    assert_eq!((seen[0].context, seen[0].name), (Context::Init, None));
    assert_eq!(
        (seen[1].context, seen[1].name),
        (Context::Isr, live(b"one"))
    );
    assert_eq!((seen[2].context, seen[2].name), (Context::Thread, None));
    assert_eq!(find_name(&buffer, 0xF0F0_F0F0), Ok(live(b"one")));
}
