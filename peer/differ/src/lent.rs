//! Bytes lent to a call, between patterned bytes that no call may change.

use peer::generate::chance::Chance;
use std::ptr::null_mut;

const GUARD: usize = 64;
const ALIGNMENTS: usize = 16;

/// The patterned bytes, whatever the alignment.
const PATTERN: [u8; GUARD + ALIGNMENTS] = pattern();

const fn pattern() -> [u8; GUARD + ALIGNMENTS] {
    let mut bytes = [0; GUARD + ALIGNMENTS];
    let mut index = 0;
    while index < bytes.len() {
        bytes[index] = (index as u8).wrapping_mul(167) ^ 0x5A;
        index += 1;
    }
    bytes
}

/// One part of memory, used again for each call.
#[derive(Default)]
pub struct Lent {
    memory: Vec<u8>,
    start: usize,
    length: usize,
}

impl Lent {
    /// Lends a copy of the bytes.
    pub fn copy(&mut self, chance: &mut Chance, bytes: &[u8]) {
        self.place(chance, bytes.len());
        self.bytes_mut().copy_from_slice(bytes);
    }

    /// Lends so many equal bytes.
    pub fn fill(&mut self, chance: &mut Chance, length: usize, byte: u8) {
        self.place(chance, length);
        self.bytes_mut().fill(byte);
    }

    /// Each time at another alignment, by chance.
    fn place(&mut self, chance: &mut Chance, length: usize) {
        self.start = GUARD + chance.below(ALIGNMENTS);
        self.length = length;
        let end = self.start + length;
        if self.memory.len() < end + GUARD {
            self.memory.resize(end + GUARD, 0);
        }
        self.memory[..self.start].copy_from_slice(&PATTERN[..self.start]);
        self.memory[end..end + GUARD].copy_from_slice(&PATTERN[..GUARD]);
    }

    pub fn guards_hold(&self) -> bool {
        let end = self.start + self.length;
        self.memory[..self.start] == PATTERN[..self.start]
            && self.memory[end..end + GUARD] == PATTERN[..GUARD]
    }

    pub fn bytes(&self) -> &[u8] {
        &self.memory[self.start..self.start + self.length]
    }

    pub fn bytes_mut(&mut self) -> &mut [u8] {
        &mut self.memory[self.start..self.start + self.length]
    }

    /// The pointer and the length for C; no bytes at all are now and then null.
    pub fn pointer(&mut self, chance: &mut Chance) -> (*mut u8, usize) {
        if self.length == 0 && chance.one_in(2) {
            return (null_mut(), 0);
        }
        (self.bytes_mut().as_mut_ptr(), self.length)
    }
}
