//! Refusal 26, of a dump that stops before its registry's or its buffer's end: both sides of each limit.

use peer::*;

/// A dump of free entries and unused slots, laid out by hand; the ends are offsets.
#[derive(Clone, Copy)]
struct Shape {
    order: ByteOrder,
    base: u32,
    name_size: u16,
    registry_end: u32,
    buffer_start: u32,
    buffer_end: u32,
    current: u32,
    length: usize,
}

/// Four entries of 20 bytes end at 128, four slots at 256.
const SHAPE: Shape = Shape {
    order: ByteOrder::Little,
    base: 0x2000_0000,
    name_size: 4,
    registry_end: 128,
    buffer_start: 128,
    buffer_end: 256,
    current: 128,
    length: 256,
};

impl Shape {
    fn of_length(self, length: usize) -> Shape {
        Shape { length, ..self }
    }

    /// The registry ends elsewhere, and the slots start there.
    fn registry(self, end: u32) -> Shape {
        Shape {
            registry_end: end,
            buffer_start: end,
            current: end,
            ..self
        }
    }

    fn buffer(self, end: u32) -> Shape {
        Shape {
            buffer_end: end,
            ..self
        }
    }

    fn bytes(&self) -> Vec<u8> {
        let size = u32::from(self.name_size);
        let size = match self.order {
            ByteOrder::Little => size << 16,
            ByteOrder::Big => size,
        };
        let at = |offset| self.base.wrapping_add(offset);
        let ends = [self.registry_end, self.buffer_start, self.buffer_end];
        let [registry_end, buffer_start, buffer_end] = ends.map(at);
        let words = [0x5458_5442, 0xFFFF, self.base, at(48), size];
        let ends = [registry_end, buffer_start, buffer_end, at(self.current)];
        let words = words.iter().chain(&ends).chain(&[0; 3]);
        let mut bytes: Vec<u8> = words.flat_map(|&word| self.stored(word)).collect();
        // A byte 1 at the start of an entry makes it free.
        bytes.resize(self.registry_end.clamp(48, 65_536) as usize, 1);
        bytes.resize(self.length.max(bytes.len()), 0);
        bytes.truncate(self.length);
        bytes
    }

    fn stored(&self, word: u32) -> [u8; 4] {
        match self.order {
            ByteOrder::Little => word.to_le_bytes(),
            ByteOrder::Big => word.to_be_bytes(),
        }
    }

    /// The number and the place, or 0 and the count of events.
    fn checked(&self) -> (u32, usize) {
        match check(&self.bytes()) {
            Ok(summary) => (0, summary.events),
            Err(refusal) => (refusal.number, refusal.place),
        }
    }
}

#[test]
fn lengths_about_each_end() {
    for (length, expected) in [
        (0, (1, 0)),
        (47, (1, 0)),
        (48, (26, 80)),
        (49, (26, 79)),
        (127, (26, 1)),
        (128, (26, 128)),
        (129, (26, 127)),
        (255, (26, 1)),
        (256, (0, 0)),
        (257, (0, 0)),
    ] {
        for order in [ByteOrder::Little, ByteOrder::Big] {
            for base in [0, 0x2000_0000, 0xFFFF_FF00, 0xFFFF_FFFF] {
                let shape = Shape {
                    order,
                    base,
                    ..SHAPE
                };
                let given = shape.of_length(length).checked();
                assert_eq!(given, expected, "{} bytes", length);
            }
        }
    }
}

#[test]
fn a_registry_without_entries_is_never_cut() {
    let shape = SHAPE.registry(48).buffer(80);
    let of = |length| shape.of_length(length).checked();
    assert_eq!(of(47), (1, 0));
    assert_eq!(of(48), (26, 32));
    assert_eq!(of(79), (26, 1));
    assert_eq!(of(80), (0, 0));
}

/// 48 and as many whole entries as 65,536 bytes can hold, worked out by hand.
#[test]
fn the_last_registry_end_of_each_size() {
    for (name_size, last) in [
        (4, 48 + 20 * 3_274),
        (8, 48 + 24 * 2_728),
        (12, 48 + 28 * 2_338),
        (20, 48 + 36 * 1_819),
        (64, 48 + 80 * 818),
    ] {
        let shape = Shape { name_size, ..SHAPE }.of_length(100);
        let of = |end| shape.registry(end).checked();
        let entry = 16 + u32::from(name_size);
        assert!(last <= 65_536 && last + entry > 65_536);
        assert_eq!(of(last), (26, last as usize - 100));
        assert_eq!(of(last + entry), (7, 0));
        assert_eq!(of(last - 4), (7, 0));
    }
}

/// 65,488 is 16 times the prime 4,093, so that no entries of 20 to 80 bytes fill it.
#[test]
fn no_registry_ends_at_65_536() {
    for name_size in (4..=64).step_by(4) {
        let shape = Shape { name_size, ..SHAPE }.of_length(100);
        assert_eq!(shape.registry(65_536).checked(), (7, 0));
    }
}

#[test]
fn the_last_buffer_end() {
    for (registry_end, buffer_end, length, expected) in [
        (128, 65_536, 256, (26, 65_280)),
        (128, 65_536, 65_535, (26, 1)),
        (128, 65_536, 65_536, (0, 0)),
        (128, 65_536, 65_537, (2, 0)),
        (128, 65_568, 256, (9, 0)),
        (128, 65_568, 65_536, (9, 0)),
        (128, 65_504, 65_503, (26, 1)),
        (68, 65_508, 100, (26, 65_408)),
        (68, 65_540, 100, (9, 0)),
        (188, 65_532, 200, (26, 65_332)),
        (188, 65_564, 200, (9, 0)),
        (48, 65_520, 80, (26, 65_440)),
        (48, 65_552, 80, (9, 0)),
        (48, 65_536, 80, (9, 0)),
    ] {
        let shape = SHAPE.registry(registry_end).buffer(buffer_end);
        let given = shape.of_length(length).checked();
        assert_eq!(given, expected, "end {}", buffer_end);
    }
}

#[test]
fn wrong_ends_are_not_cuts() {
    for end in [0, 28, 47, 129, 144, 65_536, 65_548, 1 << 20, u32::MAX - 3] {
        let shape = SHAPE.registry(end);
        assert_eq!(shape.of_length(100).checked(), (7, 0), "end {}", end);
    }
    for end in [0, 96, 128, 129, 257, 65_552, 1 << 20, u32::MAX - 31] {
        let shape = SHAPE.buffer(end);
        assert_eq!(shape.of_length(200).checked(), (9, 0), "end {}", end);
        assert_eq!(shape.of_length(128).checked(), (9, 0), "end {}", end);
        assert_eq!(shape.of_length(127).checked(), (26, 1), "end {}", end);
    }
}

#[test]
fn the_place_among_the_other_checks() {
    let cut = |shape: &Shape, length| shape.of_length(length).checked();
    let mut wrong = SHAPE;
    wrong.current = 256;
    assert_eq!(cut(&wrong, 256), (10, 0));
    assert_eq!(cut(&wrong, 255), (26, 1));
    wrong.buffer_end = 250;
    assert_eq!(cut(&wrong, 255), (9, 0));
    wrong.buffer_start = 148;
    assert_eq!(cut(&wrong, 128), (8, 0));
    assert_eq!(cut(&wrong, 127), (26, 1));
    wrong.registry_end = 129;
    assert_eq!(cut(&wrong, 127), (7, 0));
}

#[test]
fn entries_and_slots_are_read_later() {
    let mut dump = SHAPE.bytes();
    // An in-use entry of type 0, then a used slot where none may be.
    dump[48..50].fill(0);
    assert_eq!(check(&dump[..255]), Err(Refusal::at(26, 1)));
    assert_eq!(check(&dump), Err(Refusal::at(11, 0)));
    dump[48] = 1;
    dump[160] = 5;
    assert_eq!(check(&dump[..255]), Err(Refusal::at(26, 1)));
    assert_eq!(check(&dump), Err(Refusal::at(12, 1)));
}

/// What each call gives whose arguments are refused, too.
fn refusals(dump: &[u8]) -> [Option<Refusal>; 7] {
    let object = Object {
        kind: 0,
        pointer: 7,
        parameters: [0, 0],
        reserved: [0, 0],
        name: b"\0",
    };
    let reading = Reading::new(0, 1 << 24, 0);
    let mut buffer = dump.to_vec();
    let given = [
        event(dump, 9).err(),
        find_name(dump, 7).err(),
        line(dump, &reading, 9, &mut []).err(),
        listing(dump, &reading, &mut []).err(),
        record(&mut buffer, &[0; 8]).err(),
        register(&mut buffer, &object).err(),
        remove(&mut buffer, 7).err(),
    ];
    assert_eq!(buffer, dump);
    given
}

#[test]
fn every_call_passes_it_on() {
    let of = |length| refusals(&SHAPE.of_length(length).bytes());
    let at = |number, place| Some(Refusal { number, place });
    assert_eq!(of(47), [at(1, 0); 7]);
    assert_eq!(of(48), [at(26, 80); 7]);
    assert_eq!(of(127), [at(26, 1); 7]);
    assert_eq!(of(128), [at(26, 128); 7]);
    assert_eq!(of(255), [at(26, 1); 7]);
    let whole = [25, 0, 14, 14, 17, 19, 22].map(|number| match number {
        0 => None,
        _ => at(number, 0),
    });
    assert_eq!(of(256), whole);
    let of = |end| refusals(&SHAPE.buffer(end).bytes());
    assert_eq!(of(65_536), [at(26, 65_280); 7]);
    assert_eq!(of(65_568), [at(9, 0); 7]);
}

#[test]
fn formatting_asks_for_no_end() {
    let mut buffer = SHAPE.of_length(100).bytes();
    let plan = Plan {
        order: ByteOrder::Little,
        base: 0,
        mask: 1,
        name_size: 4,
        entries: 0,
    };
    assert_eq!(format(&mut buffer, &plan), Ok(1));
}
