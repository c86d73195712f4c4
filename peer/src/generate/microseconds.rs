//! Cases whose microseconds lie on both sides of two to the 53.

use super::draft::Draft;
use super::sound::{sound, Measure};
use super::values;
use super::Generator;
use crate::call::Call;
use crate::case::Case;
use crate::limits::FIRST_QUOTED;

/// Low rates, so that a few gaps of the widest timer reach the limit.
const RATES: [u32; 6] = [1, 1, 2, 3, 4, 7];

/// The most ticks with bare microseconds; from a rate of 976 on no dump has more, and the product fits up to 2,047.
pub fn last_bare_ticks(rate: u32) -> u64 {
    (FIRST_QUOTED * u64::from(rate) - 1) / 1_000_000
}

/// A few events whose last ticks are the most with bare microseconds, or one or two off.
pub fn at_the_limit(generator: &mut Generator) -> Case {
    let chance = &mut generator.chance;
    let rate = chance.pick(&RATES);
    let ticks = last_bare_ticks(rate) - 1 + chance.long_below(4);
    let pointers = values::pointers(chance);
    let times = times(ticks);
    let measure = Measure {
        entries: 1,
        slots: times.len(),
    };
    let mut sketch = sound(chance, &measure, &pointers);
    sketch.mask = u32::MAX;
    let start = chance.word();
    let current = chance.below(times.len());
    sketch.current = sketch.pointer(sketch.ring() + 32 * current);
    for (position, time) in times.iter().enumerate() {
        let stamp = start.wrapping_add(*time as u32);
        let index = (current + position) % times.len();
        sketch.slots[index] = super::sound::event(chance, stamp, &pointers);
    }
    let mut draft = Draft::new("microseconds", sketch.bytes(), pointers);
    let mut reading = generator.readings.accepted(chance, draft.events());
    reading.rate = rate;
    let room = draft.listing_length(&reading) as u32;
    draft.make(Call::Listing { reading, room });
    draft.make(Call::Event {
        position: times.len() - 1,
    });
    draft.finish()
}

/// Times from 0 up to the ticks, with gaps of nearly equal size, each below the timer range.
fn times(ticks: u64) -> Vec<u64> {
    let gaps = ticks / u64::from(u32::MAX) + 1;
    let gap = ticks / gaps;
    (0..gaps).map(|index| index * gap).chain([ticks]).collect()
}
