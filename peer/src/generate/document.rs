//! The cases that the documents themselves name: 01's whole case, both sides of each line, and the cut dumps, the mending, the first quoted key, the names of removed threads and the name files of 02.

use super::cut_cases::{cut_whole, far_ends};
use super::draft::Draft;
use super::filed_cases::filed_cases;
use super::gone_cases::gone_cases;
use super::mend_cases::mend_cases;
use super::microseconds::last_bare_ticks;
use super::naming_cases::naming_cases;
use crate::call::{Call, Registration};
use crate::case::Case;
use crate::format::{format, Plan};
use crate::limits::SERIALS;
use crate::order::ByteOrder;
use crate::reading::Reading;
use crate::record::record;

const PLAIN: Plan = Plan {
    order: ByteOrder::Little,
    base: 0x2000_0000,
    mask: 0xFFFF,
    name_size: 8,
    entries: 0,
};

pub fn cases() -> Vec<Case> {
    let little = whole_case("the whole case", ByteOrder::Little, 8192);
    let big = whole_case("the whole case, big-endian", ByteOrder::Big, 1);
    let cut = [cut_whole(&little, 10), cut_whole(&big, 11), far_ends(12)].concat();
    let mut cases = vec![
        little,
        big,
        removed_case("its thread removed", ByteOrder::Little, 13),
        removed_case("its thread removed, big-endian", ByteOrder::Big, 14),
        masks(),
        top_of_memory(),
        smallest_buffer(80),
        smallest_buffer(79),
        gaps(),
        microseconds(),
        name_bytes(),
        last_serial(),
        keys_beside_the_limit(),
        wrong_length(47),
        wrong_length(65_537),
        largest_listing(),
        largest_times(),
    ];
    cases.extend(cut);
    cases.extend(mend_cases());
    cases.extend(gone_cases());
    cases.extend(filed_cases());
    cases.extend(naming_cases());
    cases
}

fn start(title: &str, length: usize, plan: Plan) -> Draft {
    let mut draft = Draft::new(title, vec![0xEE; length], Vec::new());
    draft.make(Call::Format(plan));
    draft
}

fn thread(pointer: u32, name: &[u8]) -> Call {
    Call::Register(Registration {
        kind: 1,
        pointer,
        parameters: [0x2000_3000, 1024],
        reserved: [16, 0],
        name: name.to_vec(),
    })
}

fn plain_words(stamp: u32) -> [u32; 8] {
    [0x2000_1000, 16, 5, stamp, 1, 2, 3, 4]
}

fn plain_event(stamp: u32) -> Call {
    Call::Record(plain_words(stamp))
}

fn listing(rate: u32, unit: u32, serial: u64) -> Call {
    Call::Listing {
        reading: Reading::new(rate, unit, serial),
        room: 2_000,
    }
}

fn line(rate: u32, unit: u32, serial: u64, position: usize) -> Call {
    Call::Line {
        reading: Reading::new(rate, unit, serial),
        position,
        room: 200,
    }
}

fn whole_case(title: &str, order: ByteOrder, unit: u32) -> Case {
    let mut draft = whole_writes(title, order);
    whole_reads(&mut draft, unit);
    draft.make(Call::Bytes);
    draft.finish()
}

/// The thread's name stays after its removal, until the entry serves another.
fn removed_case(title: &str, order: ByteOrder, unit: u32) -> Case {
    let pointer = 0x2000_1000;
    let mut draft = whole_writes(title, order);
    draft.make(Call::Remove { pointer });
    whole_reads(&mut draft, unit);
    for (registered, name) in [(pointer, b"fan"), (0x2000_2000, b"tap")] {
        draft.make(thread(registered, name));
        draft.make(Call::FindName { pointer });
        draft.make(Call::Event { position: 0 });
        draft.make(Call::Remove {
            pointer: registered,
        });
    }
    draft.make(Call::Event { position: 2 });
    draft.finish()
}

fn whole_writes(title: &str, order: ByteOrder) -> Draft {
    let plan = Plan {
        order,
        entries: 1,
        ..PLAIN
    };
    let mut draft = start(title, 168, plan);
    draft.make(thread(0x2000_1000, b"pump"));
    draft.make(plain_event(9));
    draft.make(plain_event(65_500));
    draft.make(Call::Record([
        0xFFFF_FFFF,
        0x2000_1000,
        1025,
        20,
        0,
        0,
        0,
        0,
    ]));
    draft.make(Call::Record([0x2000_2000, 16, 6, 20, 7, 0, 0, 0]));
    draft
}

fn whole_reads(draft: &mut Draft, unit: u32) {
    draft.make(Call::Check);
    draft.make(Call::FindName {
        pointer: 0x2000_1000,
    });
    for position in 0..4 {
        draft.make(Call::Event { position });
        draft.make(line(3_000_000, unit, 0, position));
    }
    draft.make(listing(3_000_000, unit, 0));
}

fn masks() -> Case {
    let mut draft = Draft::new("masks", vec![0xEE; 80], Vec::new());
    for mask in [0x1, u32::MAX, 0, 0x5, 0xFF00] {
        draft.make(Call::Format(Plan { mask, ..PLAIN }));
        draft.make(Call::Check);
    }
    draft.finish()
}

fn top_of_memory() -> Case {
    let plan = Plan {
        base: 0xFFFF_FF00,
        name_size: 4,
        entries: 4,
        ..PLAIN
    };
    let mut draft = start("top of memory", 256, plan);
    draft.make(Call::Check);
    for stamp in 1..6 {
        draft.make(plain_event(stamp));
    }
    draft.make(Call::Check);
    draft.make(listing(1_000_000, 2, 0));
    draft.finish()
}

fn smallest_buffer(length: usize) -> Case {
    let mut draft = start("smallest buffer", length, PLAIN);
    draft.make(Call::Check);
    draft.finish()
}

fn gaps() -> Case {
    let mut draft = start("gaps", 48 + 96, PLAIN);
    for stamp in [65_500, 20, 20] {
        draft.make(plain_event(stamp));
    }
    draft.make(listing(1_000_000, 3, 0));
    draft.finish()
}

fn microseconds() -> Case {
    let plan = Plan {
        mask: u32::MAX,
        ..PLAIN
    };
    let mut draft = start("microseconds", 48 + 160, plan);
    for ticks in [
        0,
        4_000_000_000,
        8_000_000_000,
        9_007_199_254,
        9_007_199_255u64,
    ] {
        draft.make(plain_event(ticks as u32));
    }
    draft.make(listing(1, 4, 0));
    draft.finish()
}

fn name_bytes() -> Case {
    let mut draft = start(
        "name bytes",
        48 + 24 + 32,
        Plan {
            entries: 1,
            ..PLAIN
        },
    );
    draft.make(thread(0x2000_1000, &[0x41, 0x22, 0x0A]));
    draft.make(plain_event(0));
    draft.make(listing(1, 5, 0));
    draft.finish()
}

fn last_serial() -> Case {
    let mut draft = start("last serial", 48 + 64, PLAIN);
    draft.make(plain_event(0));
    draft.make(listing(1, 6, 1_099_511_627_775));
    draft.make(plain_event(1));
    draft.make(listing(1, 7, 1_099_511_627_775));
    draft.make(listing(1, 7, 1_099_511_627_774));
    draft.finish()
}

/// Unit 8191 has the last bare keys, unit 8192 the first in quotes; no listing goes from one to the other.
fn keys_beside_the_limit() -> Case {
    let mut draft = start("keys beside the limit", 48 + 64, PLAIN);
    draft.make(plain_event(0));
    draft.make(listing(1, 8191, SERIALS - 1));
    draft.make(plain_event(1));
    draft.make(listing(1, 8191, SERIALS - 1));
    for position in 0..2 {
        draft.make(line(1, 8191, SERIALS - 2, position));
        draft.make(line(1, 8192, 0, position));
    }
    draft.finish()
}

/// The length is refused before the id, which is bad.
fn wrong_length(length: usize) -> Case {
    let mut draft = start("wrong length", length, PLAIN);
    draft.make(Call::Check);
    draft.finish()
}

/// Every slot of the largest buffer, all bytes 1.
fn largest_listing() -> Case {
    let mut sketch = Draft::new("", vec![1; 65_536], Vec::new());
    sketch.make(Call::Format(PLAIN));
    let mut buffer = sketch.buffer;
    buffer[48..].fill(1);
    let mut draft = Draft::new("largest listing", buffer, Vec::new());
    draft.make(Call::Check);
    draft.make(Call::Event { position: 2_045 });
    draft.make(Call::Event { position: 2_046 });
    draft.make(Call::Listing {
        reading: Reading::new(1, 8, 0),
        room: 1_599_000,
    });
    draft.finish()
}

/// Each gap is one less than the timer's range, at the lowest rate: microseconds of nineteen digits.
fn largest_times() -> Case {
    let mut buffer = vec![0; 65_536];
    let plan = Plan {
        mask: u32::MAX,
        ..PLAIN
    };
    format(&mut buffer, &plan).expect("the plan is sound");
    for position in 0..2_046u32 {
        let words = plain_words(0u32.wrapping_sub(position));
        record(&mut buffer, &words).expect("the event is sound");
    }
    let mut draft = Draft::new("largest times", buffer, Vec::new());
    for position in [1, 2_044, 2_045] {
        draft.make(Call::Event { position });
        draft.make(line(1, 9, 0, position));
    }
    highest_rate_at_the_limit(&mut draft);
    draft.finish()
}

/// Two more writes: at the highest rate that gets so far, the last microseconds are its lowest in quotes, then its highest bare ones.
fn highest_rate_at_the_limit(draft: &mut Draft) {
    const RATE: u32 = 975;
    let largest_gap = u64::from(u32::MAX);
    let gap = last_bare_ticks(RATE) + 1 - 2_044 * largest_gap;
    // The second write drops one largest gap and adds one that is a tick less.
    let mut stamp = 0u32.wrapping_sub(2_045);
    for gap in [gap, largest_gap - 1] {
        stamp = stamp.wrapping_add(gap as u32);
        draft.make(plain_event(stamp));
        draft.make(line(RATE, 9, 0, 2_045));
    }
}
