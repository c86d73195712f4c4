//! The whole case cut at both sides of each end, and ends at both sides of the last that a dump can have, by every kind of call.

use super::draft::Draft;
use crate::answers::answer;
use crate::call::{Call, Registration};
use crate::case::Case;
use crate::format::{format, Plan};
use crate::header::Header;
use crate::order::ByteOrder;
use crate::reading::Reading;

/// The registry of the whole case ends at 72, its slots at 168.
const LENGTHS: [usize; 6] = [47, 48, 71, 72, 167, 168];

/// The case's buffer as its calls leave it, cut; a listing that is accepted has keys of the unit.
pub fn cut_whole(whole: &Case, unit: u32) -> Vec<Case> {
    let mut buffer = whole.buffer();
    for call in &whole.calls {
        answer(&mut buffer, &mut [], call);
    }
    LENGTHS
        .iter()
        .map(|&length| every_call(&format!("cut to {}", length), &buffer[..length], unit))
        .collect()
}

/// Name size 4 and four entries: the slots start at 128, so that 2,044 of them end at 65,536; 3,274 entries end at 65,528.
pub fn far_ends(unit: u32) -> Vec<Case> {
    let case = |title, buffer: Vec<u8>| every_call(title, &buffer, unit);
    vec![
        case("last registry end", far(256, 65_528, 65_560)),
        case("one entry further", far(256, 65_548, 65_580)),
        case("last buffer end", far(256, 128, 65_536)),
        case("one slot further", far(256, 128, 65_568)),
        case("one byte missing", far(65_535, 128, 65_536)),
        case("no byte missing", far(65_536, 128, 65_536)),
    ]
}

/// A formatted buffer with other ends in its header.
fn far(length: usize, registry_end: u32, buffer_end: u32) -> Vec<u8> {
    let plan = Plan {
        order: ByteOrder::Big,
        base: 0xFFFF_8000,
        mask: 0xFFFF,
        name_size: 4,
        entries: 4,
    };
    let mut buffer = vec![0; length];
    format(&mut buffer, &plan).expect("the plan is sound");
    let header = Header::read(&buffer).expect("the id is right");
    let pointer = |offset: u32| header.base.wrapping_add(offset);
    let moved = Header {
        registry_end: pointer(registry_end),
        buffer_start: pointer(registry_end),
        buffer_end: pointer(buffer_end),
        current: pointer(registry_end),
        ..header
    };
    moved.write(&mut buffer);
    buffer
}

fn every_call(title: &str, buffer: &[u8], unit: u32) -> Case {
    let reading = Reading::new(3_000_000, unit, 0);
    let pointer = 0x2000_1000;
    let mut draft = Draft::new(title, buffer.to_vec(), Vec::new());
    draft.make(Call::Check);
    draft.mend_exactly();
    draft.make(Call::Event { position: 0 });
    draft.make(Call::FindName { pointer });
    draft.make(Call::Line {
        reading,
        position: 0,
        room: 200,
    });
    draft.make(Call::Listing { reading, room: 500 });
    draft.make(Call::Record([pointer, 16, 5, 20, 1, 2, 3, 4]));
    draft.make(Call::Register(Registration {
        kind: 1,
        pointer: pointer + 1,
        parameters: [0, 0],
        reserved: [16, 0],
        name: b"valve".to_vec(),
    }));
    draft.make(Call::Remove { pointer });
    draft.finish()
}
