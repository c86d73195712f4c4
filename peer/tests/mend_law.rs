//! What document 02 says of a mended copy, over generated dumps and over every small one; the dump is read here once more, by itself.

use peer::answers::answer;
use peer::generate::Generator;
use peer::*;

/// A dump that the mender accepts, as far as it is there.
struct Seen<'a> {
    dump: &'a [u8],
    header: Header,
    ring: usize,
    end: usize,
}

impl<'a> Seen<'a> {
    fn new(dump: &'a [u8]) -> Seen<'a> {
        let header = Header::read(dump).unwrap();
        Seen {
            dump,
            header,
            ring: header.offset(header.registry_end),
            end: header.offset(header.buffer_end),
        }
    }

    fn slots(&self) -> usize {
        (self.end - self.ring) / 32
    }

    /// The slot's bytes, where all 32 of them are there.
    fn slot(&self, index: usize) -> Option<&'a [u8]> {
        let start = self.ring + 32 * index;
        self.dump.get(start..start + 32)
    }

    fn word(&self, slot: &[u8], at: usize) -> u32 {
        self.header.order.word(slot, at)
    }

    /// Wholly there, used and with an id.
    fn has_event(&self, index: usize) -> bool {
        self.slot(index).map_or(false, |slot| {
            self.word(slot, 0) != 0 && self.word(slot, 8) != 0
        })
    }

    fn has_no_id(&self, index: usize) -> bool {
        self.slot(index).map_or(false, |slot| {
            self.word(slot, 0) != 0 && self.word(slot, 8) == 0
        })
    }

    /// The index of the slot at current, where there is one.
    fn current(&self) -> Option<usize> {
        let offset = self.header.offset(self.header.current);
        (0..self.slots()).find(|index| self.ring + 32 * index == offset)
    }

    /// The slots with an event from current on, or from the start where current is bad.
    fn events(&self) -> Vec<usize> {
        let mut slots: Vec<usize> = (0..self.slots()).collect();
        slots.rotate_left(self.current().unwrap_or(0));
        slots.retain(|&slot| self.has_event(slot));
        slots
    }

    /// Whether the rule of used and unused slots holds for the slots with an event.
    fn rule_holds(&self) -> bool {
        let current = self.current().unwrap_or(0);
        let used = |slot| self.has_event(slot);
        if used(current) {
            return (0..self.slots()).all(used);
        }
        (0..current).all(used) && !(current..self.slots()).any(used)
    }

    fn entries(&self) -> Vec<&'a [u8]> {
        let size = 16 + usize::from(self.header.name_size);
        self.dump[48..self.ring].chunks(size).collect()
    }

    fn counts(&self) -> [usize; 6] {
        let packed = !self.rule_holds();
        let events = self.events();
        let moved = events.iter().enumerate().filter(|(to, from)| to != *from);
        let wrong = |entry: &&&[u8]| entry[0] != 1 && !allowed(entry[1]);
        [
            (0..self.slots())
                .filter(|&slot| self.slot(slot).is_none())
                .count(),
            usize::from(self.current().is_none()),
            self.entries().iter().filter(wrong).count(),
            (0..self.slots())
                .filter(|&slot| self.has_no_id(slot))
                .count(),
            usize::from(packed),
            if packed { moved.count() } else { 0 },
        ]
    }

    /// The name of the first thread that has the pointer, those in use before those that are gone.
    fn name(&self, pointer: u32) -> Option<Name<'a>> {
        let mut threads = self.entries();
        threads.retain(|entry| entry[1] == 1 && self.word(entry, 4) == pointer);
        threads.sort_by_key(|entry| entry[0] == 1);
        let found = threads.first()?;
        Some(Name {
            bytes: found[16..].split(|&byte| byte == 0).next()?,
            kind: match found[0] {
                1 => NameKind::Gone,
                _ => NameKind::Live,
            },
        })
    }

    fn pointers(&self) -> Vec<u32> {
        let of_entries = self.entries();
        let words = of_entries.iter().map(|entry| self.word(entry, 4));
        words.chain([0, u32::MAX]).collect()
    }
}

fn allowed(kind: u8) -> bool {
    (1..=14).contains(&kind) || (21..=28).contains(&kind)
}

/// Checks 1 to 9 still refuse, save 26 at the buffer end; the others do not.
fn refusal(dump: &[u8]) -> Option<Refusal> {
    let refusal = check(dump).err()?;
    let refuses = match refusal.number {
        26 => Seen::new(dump).ring > dump.len(),
        number => number <= 9,
    };
    refuses.then_some(refusal)
}

/// All that must hold of the mending of one dump; gives whether it was mended.
fn holds(dump: &[u8]) -> bool {
    if let Some(refusal) = refusal(dump) {
        let mut output = [b'.'; 300];
        assert_eq!(mend(dump, &mut output), Err(refusal));
        assert_eq!(output, [b'.'; 300]);
        return false;
    }
    let seen = Seen::new(dump);
    let mut output = vec![b'.'; seen.end + 64];
    let mended = mend(dump, &mut output).unwrap();
    assert_eq!(mended.length, seen.end);
    assert_eq!(mended.counts(), seen.counts());
    assert_eq!(output[seen.end..], [b'.'; 64]);
    let copy = &output[..seen.end];
    passes(dump, copy, &mended);
    same_bytes(&seen, copy);
    same_events(&seen, copy);
    same_names(&seen, copy);
    room(dump, copy);
    true
}

/// The copy passes all checks, and is its own copy; so is a dump that passes already, up to the buffer end.
fn passes(dump: &[u8], copy: &[u8], mended: &Mended) {
    assert_eq!(check(copy).err(), None);
    let mut again = vec![0; copy.len()];
    let nothing = Mended {
        length: copy.len(),
        ..Mended::default()
    };
    assert_eq!(mend(copy, &mut again), Ok(nothing));
    assert_eq!(again, copy);
    if check(dump).is_ok() {
        assert_eq!(*mended, nothing);
        assert_eq!(copy, &dump[..copy.len()]);
    }
}

/// The header but for current, the entries but for the flags of the wrong ones, and the slots, packed where the rule did not hold.
fn same_bytes(seen: &Seen, copy: &[u8]) {
    assert_eq!(copy[..32], seen.dump[..32]);
    assert_eq!(copy[36..48], seen.dump[36..48]);
    let mut entries = seen.dump[48..seen.ring].to_vec();
    for entry in entries.chunks_mut(16 + usize::from(seen.header.name_size)) {
        if !allowed(entry[1]) {
            entry[0] = 1;
        }
    }
    assert_eq!(copy[48..seen.ring], entries);
    let zeros = [0; 32];
    let (slots, current): (Vec<&[u8]>, usize) = if seen.rule_holds() {
        let kept = |slot: usize| match seen.slot(slot) {
            Some(bytes) if !seen.has_no_id(slot) => bytes,
            _ => &zeros,
        };
        let current = seen.current().unwrap_or(0);
        ((0..seen.slots()).map(kept).collect(), current)
    } else {
        let events = seen.events();
        let mut slots: Vec<&[u8]> = events.iter().filter_map(|&slot| seen.slot(slot)).collect();
        slots.resize(seen.slots(), &zeros);
        (slots, events.len())
    };
    assert_eq!(copy[seen.ring..], slots.concat());
    let header = Header::read(copy).unwrap();
    assert_eq!(header.offset(header.current), seen.ring + 32 * current);
}

/// The events of the copy are those of the dump, in order from current, all words as stored.
fn same_events(seen: &Seen, copy: &[u8]) {
    let events = seen.events();
    assert_eq!(check(copy).unwrap().events, events.len());
    // Asking for an event checks the whole dump, so that of a long ring some are enough.
    let step = 1 + events.len() / 25;
    for (position, &slot) in events.iter().enumerate().step_by(step) {
        let found = event(copy, position).unwrap();
        let words = [found.pointer, found.field, found.id, found.stamp];
        let slot = seen.slot(slot).unwrap();
        let stored: Vec<u32> = (0..8).map(|index| seen.word(slot, 4 * index)).collect();
        assert_eq!(words, stored[..4]);
        assert_eq!(found.information, stored[4..]);
    }
}

/// Only threads have names, live or gone, and their type is allowed.
fn same_names(seen: &Seen, copy: &[u8]) {
    for pointer in seen.pointers().into_iter().take(20) {
        let name = find_name(copy, pointer).unwrap();
        assert_eq!(name, seen.name(pointer));
    }
}

/// The copy's length is just enough room; one byte less is not.
fn room(dump: &[u8], copy: &[u8]) {
    let mut output = vec![b'.'; copy.len()];
    assert!(mend(dump, &mut output).is_ok());
    assert_eq!(output, copy);
    output.fill(b'.');
    output.pop();
    assert_eq!(mend(dump, &mut output), Err(Refusal::new(16)));
    assert!(output.iter().all(|&byte| byte == b'.'));
}

#[test]
fn generated_dumps() {
    let mut generator = Generator::new(5);
    let mut mended = 0;
    for _ in 0..4_000 {
        let case = generator.next_case();
        let mut buffer = case.buffer();
        let mut names = case.names();
        mended += usize::from(holds(&buffer));
        for call in &case.calls {
            let before = buffer.clone();
            answer(&mut buffer, &mut names, call);
            if buffer != before {
                mended += usize::from(holds(&buffer));
            }
        }
    }
    assert!(mended > 3_000, "{} mended", mended);
}

/// A slot that is unused, unused with words left, used, or used without id.
fn slot(state: usize, mark: u8) -> [u8; 32] {
    let mut slot = [mark; 32];
    match state {
        0 => slot.fill(0),
        1 => slot[..4].fill(0),
        2 => {}
        _ => slot[8..12].fill(0),
    }
    slot
}

/// Three slots in every state, current at each of them and beside them, and every length.
#[test]
fn every_small_ring() {
    let plan = Plan {
        order: ByteOrder::Little,
        base: 0xFFFF_FFC0,
        mask: 0xFF,
        name_size: 4,
        entries: 1,
    };
    let mut dump = vec![0xEE; 166];
    assert_eq!(format(&mut dump, &plan), Ok(3));
    for states in 0..64 {
        for (index, mark) in [3, 5, 7].into_iter().enumerate() {
            let state = states >> (2 * index) & 3;
            dump[68 + 32 * index..][..32].copy_from_slice(&slot(state, mark));
        }
        for current in [68, 100, 132, 36, 69, 164_u32] {
            let pointer = plan.base.wrapping_add(current);
            dump[32..36].copy_from_slice(&pointer.to_le_bytes());
            for length in (68..=166).rev() {
                assert!(holds(&dump[..length]));
            }
        }
    }
}
