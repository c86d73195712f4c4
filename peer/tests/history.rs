//! Random histories of a formatted buffer: what is read back is what was written, at the times it was written.

use peer::generate::chance::Chance;
use peer::*;

/// A true time, and the words recorded at it.
type Write = (u64, [u32; 8]);

const HISTORIES: usize = 2_000;
const MOST_WRITES: usize = 15;

#[test]
fn the_last_writes_are_listed_at_their_times() {
    let mut chance = Chance::new(7);
    for index in 0..HISTORIES {
        let order = [ByteOrder::Little, ByteOrder::Big][index % 2];
        let slots = chance.between(1, 6);
        let mask = u32::MAX >> chance.below(32);
        let mut buffer = formatted(&mut chance, order, mask, slots);
        let writes = write_events(&mut chance, &mut buffer, mask);
        let kept = &writes[writes.len().saturating_sub(slots)..];
        compare(&buffer, u64::from(mask) + 1, kept);
    }
}

fn formatted(chance: &mut Chance, order: ByteOrder, mask: u32, slots: usize) -> Vec<u8> {
    let entries = chance.below(3);
    let plan = Plan {
        order,
        base: chance.word(),
        mask,
        name_size: 4,
        entries,
    };
    let mut buffer = vec![0xEE; 48 + 20 * entries + 32 * slots];
    assert_eq!(format(&mut buffer, &plan), Ok(slots));
    buffer
}

/// Records events whose times go on by up to three ranges of the timer.
fn write_events(chance: &mut Chance, buffer: &mut [u8], mask: u32) -> Vec<Write> {
    let range = u64::from(mask) + 1;
    let mut time = chance.long_below(range);
    let mut writes = Vec::new();
    for _ in 0..chance.below(MOST_WRITES + 1) {
        time += gap(chance, range);
        let mut words = chance.words();
        words[0] = words[0].max(1);
        words[2] = words[2].max(1);
        words[3] = time as u32;
        record(buffer, &words).unwrap();
        words[3] &= mask;
        writes.push((time, words));
    }
    writes
}

fn gap(chance: &mut Chance, range: u64) -> u64 {
    match chance.below(5) {
        0 => chance.pick(&[0, range - 1, range, range + 1, 3 * range]),
        1 => chance.long_below(range),
        _ => chance.long_below(3 * range + 1),
    }
}

/// The ranges that the timer went through unseen are all that the ticks lack.
fn compare(dump: &[u8], range: u64, kept: &[Write]) {
    let mut unseen = 0;
    for (position, (time, words)) in kept.iter().enumerate() {
        let found = event(dump, position).unwrap();
        assert_eq!(words_of(&found), *words);
        if position > 0 {
            unseen += (time - kept[position - 1].0) / range;
        }
        assert_eq!(found.ticks + range * unseen, time - kept[0].0);
    }
    assert_eq!(check(dump).unwrap().events, kept.len());
    assert_eq!(event(dump, kept.len()), Err(Refusal::new(25)));
}

fn words_of(event: &Event) -> [u32; 8] {
    let [first, second, third, fourth] = event.information;
    [
        event.pointer,
        event.field,
        event.id,
        event.stamp,
        first,
        second,
        third,
        fourth,
    ]
}
