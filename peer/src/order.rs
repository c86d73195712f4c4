//! The two byte orders, and how a word is read and written in each.
//! The offset handed in must lie inside the bytes: layout.rs has seen to that.

#[derive(Clone, Copy, Debug, PartialEq, Eq)]
pub enum ByteOrder {
    Little,
    Big,
}

impl ByteOrder {
    pub fn word(self, bytes: &[u8], at: usize) -> u32 {
        let mut four = [0; 4];
        four.copy_from_slice(&bytes[at..at + 4]);
        match self {
            ByteOrder::Little => u32::from_le_bytes(four),
            ByteOrder::Big => u32::from_be_bytes(four),
        }
    }

    pub fn half(self, bytes: &[u8], at: usize) -> u16 {
        let two = [bytes[at], bytes[at + 1]];
        match self {
            ByteOrder::Little => u16::from_le_bytes(two),
            ByteOrder::Big => u16::from_be_bytes(two),
        }
    }

    pub fn put_word(self, bytes: &mut [u8], at: usize, word: u32) {
        let four = match self {
            ByteOrder::Little => word.to_le_bytes(),
            ByteOrder::Big => word.to_be_bytes(),
        };
        bytes[at..at + 4].copy_from_slice(&four);
    }

    pub fn put_half(self, bytes: &mut [u8], at: usize, half: u16) {
        let two = match self {
            ByteOrder::Little => half.to_le_bytes(),
            ByteOrder::Big => half.to_be_bytes(),
        };
        bytes[at..at + 2].copy_from_slice(&two);
    }
}
