//! Events as a device might record them, the same in every run.

use lepsaino::Slot;
use peer::generate::chance::Chance;

pub const INIT: u32 = 0xF0F0_F0F0;
pub const ISR: u32 = 0xFFFF_FFFF;

pub struct Stream {
    pub chance: Chance,
    stamp: u32,
}

impl Stream {
    /// The stamps start near the timer's end, so that they go round once.
    pub fn new() -> Stream {
        Stream {
            chance: Chance::new(1),
            stamp: 0xFFD0_0000,
        }
    }

    pub fn event(&mut self, pointer: u32, field: u32) -> Slot {
        self.stamp = self
            .stamp
            .wrapping_add(self.chance.between(8, 4_000) as u32);
        Slot {
            pointer,
            field,
            id: self.chance.between(1, 1_100) as u32,
            stamp: self.stamp,
            first: self.information(),
            second: self.information(),
            third: self.information(),
            fourth: self.information(),
        }
    }

    /// By a thread, with its priority.
    pub fn thread(&mut self, pointer: u32) -> Slot {
        let priority = self.chance.below(32) as u32;
        self.event(pointer, priority)
    }

    /// Zeros, small numbers, addresses and words of any size.
    fn information(&mut self) -> u32 {
        match self.chance.below(20) {
            0..=6 => 0,
            7..=11 => self.chance.below(100) as u32,
            12..=14 => self.chance.below(65_536) as u32,
            15..=17 => 0x2000_0000 + self.chance.below(65_536) as u32,
            _ => self.chance.word(),
        }
    }
}
