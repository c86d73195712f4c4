//! The first bytes of a sound dump, however many: too short a header is 1, a missing end 26, and from there on all is as in the whole.

use peer::answers::{answer, Reply};
use peer::call::{Call, Registration};
use peer::*;

/// A sound dump, and where its registry and its slots end.
struct Sound {
    dump: Vec<u8>,
    registry_end: usize,
    buffer_end: usize,
}

/// Registers a thread where there is an entry, and fills the ring and one slot more.
fn sound(plan: &Plan, registry_end: usize, buffer_end: usize, leftover: usize) -> Sound {
    let mut dump = vec![0xEE; buffer_end + leftover];
    let slots = format(&mut dump, plan).unwrap();
    if plan.entries > 0 {
        assert_eq!(answer(&mut dump, &mut [], &registration(5)).refusal(), None);
    }
    for stamp in 0..=slots as u32 {
        record(&mut dump, &[5, 16, 1 + stamp, stamp, 1, 2, 3, 4]).unwrap();
    }
    Sound {
        dump,
        registry_end,
        buffer_end,
    }
}

fn registration(pointer: u32) -> Call {
    Call::Register(Registration {
        kind: 1,
        pointer,
        parameters: [0, 0],
        reserved: [0, 0],
        name: b"pump".to_vec(),
    })
}

/// One entry of 24 bytes and three slots; four of 20 and four at the top of memory; none and one.
fn small_dumps(order: ByteOrder) -> [Sound; 3] {
    let plan = |base, name_size, entries| Plan {
        order,
        base,
        mask: 0xFFFF,
        name_size,
        entries,
    };
    [
        sound(&plan(0x2000_0000, 8, 1), 72, 168, 7),
        sound(&plan(0xFFFF_FF00, 4, 4), 128, 256, 31),
        sound(&plan(0, 64, 0), 48, 80, 0),
    ]
}

fn calls() -> [Call; 8] {
    let reading = Reading::new(3_000_000, 8192, 0);
    let position = 0;
    [
        Call::Check,
        Call::Event { position },
        Call::FindName { pointer: 5 },
        Call::Line {
            reading,
            position,
            room: 200,
        },
        Call::Listing {
            reading,
            room: 1_000,
        },
        Call::Record([5, 16, 9, 20, 1, 2, 3, 4]),
        registration(6),
        Call::Remove { pointer: 5 },
    ]
}

impl Sound {
    fn refusal(&self, length: usize) -> Option<Refusal> {
        let cut = |end: usize| Some(Refusal::at(26, end - length));
        match length {
            _ if length < 48 => Some(Refusal::at(1, 0)),
            _ if length < self.registry_end => cut(self.registry_end),
            _ if length < self.buffer_end => cut(self.buffer_end),
            _ => None,
        }
    }

    fn compare(&self, call: &Call) {
        let mut whole = self.dump.clone();
        let of_whole = without_digest(answer(&mut whole, &mut [], call));
        for length in 0..=self.dump.len() {
            let mut buffer = self.dump[..length].to_vec();
            let reply = answer(&mut buffer, &mut [], call);
            match self.refusal(length) {
                None => {
                    assert_eq!(without_digest(reply), of_whole);
                    assert_eq!(buffer, whole[..length]);
                }
                refusal => {
                    assert_eq!(reply.refusal(), refusal, "{} bytes", length);
                    assert_eq!(buffer, self.dump[..length]);
                }
            }
        }
    }
}

/// The digest is of all bytes, which are fewer.
fn without_digest(reply: Reply) -> Reply {
    match reply {
        Reply::Written { result, .. } => Reply::Written { result, digest: 0 },
        reply => reply,
    }
}

#[test]
fn every_length_of_small_dumps() {
    for order in [ByteOrder::Little, ByteOrder::Big] {
        for sound in small_dumps(order) {
            for call in calls() {
                sound.compare(&call);
            }
        }
    }
}

#[test]
fn every_length_of_the_largest_dump() {
    for order in [ByteOrder::Little, ByteOrder::Big] {
        let plan = Plan {
            order,
            base: 0x2000_0000,
            mask: 0xFFFF,
            name_size: 4,
            entries: 4,
        };
        let sound = sound(&plan, 128, 65_536, 0);
        for length in 0..=65_536 {
            let refusal = check(&sound.dump[..length]).err();
            assert_eq!(refusal, sound.refusal(length), "{} bytes", length);
        }
    }
}
