//! A dump in parts, each of which can be set to anything before the bytes are laid out.

use crate::order::ByteOrder;

pub struct EntrySketch {
    pub flag: u8,
    pub kind: u8,
    pub reserved: [u8; 2],
    pub pointer: u32,
    pub parameters: [u32; 2],
    pub name_field: Vec<u8>,
}

pub struct Sketch {
    pub order: ByteOrder,
    pub id: u32,
    pub mask: u32,
    pub base: u32,
    pub registry_start: u32,
    pub reserved_half: u16,
    pub name_size: u16,
    pub registry_end: u32,
    pub buffer_start: u32,
    pub buffer_end: u32,
    pub current: u32,
    pub reserved: [u32; 3],
    pub entries: Vec<EntrySketch>,
    pub slots: Vec<[u32; 8]>,
    pub leftover: Vec<u8>,
    /// Bytes from here on are cut off.
    pub kept: usize,
}

impl Sketch {
    pub fn bytes(&self) -> Vec<u8> {
        let mut bytes = Vec::new();
        self.lay_header(&mut bytes);
        for entry in &self.entries {
            self.lay_entry(entry, &mut bytes);
        }
        for word in self.slots.iter().flatten() {
            self.lay_word(*word, &mut bytes);
        }
        bytes.extend_from_slice(&self.leftover);
        bytes.truncate(self.kept);
        bytes
    }

    /// The length of the bytes laid out and kept.
    pub fn length(&self) -> usize {
        self.kept.min(self.end() + self.leftover.len())
    }

    /// The offset of the first slot as laid out, whatever the header says.
    pub fn ring(&self) -> usize {
        let names: usize = self
            .entries
            .iter()
            .map(|entry| entry.name_field.len())
            .sum();
        48 + 16 * self.entries.len() + names
    }

    /// The offset past the last slot as laid out, whatever the header says.
    pub fn end(&self) -> usize {
        self.ring() + 32 * self.slots.len()
    }

    pub fn pointer(&self, offset: usize) -> u32 {
        self.base.wrapping_add(offset as u32)
    }

    fn lay_header(&self, bytes: &mut Vec<u8>) {
        for word in [self.id, self.mask, self.base, self.registry_start] {
            self.lay_word(word, bytes);
        }
        for half in [self.reserved_half, self.name_size] {
            match self.order {
                ByteOrder::Little => bytes.extend_from_slice(&half.to_le_bytes()),
                ByteOrder::Big => bytes.extend_from_slice(&half.to_be_bytes()),
            }
        }
        for word in [
            self.registry_end,
            self.buffer_start,
            self.buffer_end,
            self.current,
        ] {
            self.lay_word(word, bytes);
        }
        for word in self.reserved {
            self.lay_word(word, bytes);
        }
    }

    fn lay_entry(&self, entry: &EntrySketch, bytes: &mut Vec<u8>) {
        bytes.extend_from_slice(&[entry.flag, entry.kind]);
        bytes.extend_from_slice(&entry.reserved);
        self.lay_word(entry.pointer, bytes);
        for parameter in entry.parameters {
            self.lay_word(parameter, bytes);
        }
        bytes.extend_from_slice(&entry.name_field);
    }

    fn lay_word(&self, word: u32, bytes: &mut Vec<u8>) {
        match self.order {
            ByteOrder::Little => bytes.extend_from_slice(&word.to_le_bytes()),
            ByteOrder::Big => bytes.extend_from_slice(&word.to_be_bytes()),
        }
    }
}
