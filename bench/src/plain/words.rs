//! Words of a dump. The byte order is a constant, so that the compiler makes a reader for each.

pub fn half<const BIG: bool>(bytes: &[u8], at: usize) -> u16 {
    let bytes = bytes[at..at + 2].try_into().unwrap();
    if BIG {
        u16::from_be_bytes(bytes)
    } else {
        u16::from_le_bytes(bytes)
    }
}

pub fn word<const BIG: bool>(bytes: &[u8], at: usize) -> u32 {
    let bytes = bytes[at..at + 4].try_into().unwrap();
    if BIG {
        u32::from_be_bytes(bytes)
    } else {
        u32::from_le_bytes(bytes)
    }
}

pub fn put_word<const BIG: bool>(bytes: &mut [u8], at: usize, word: u32) {
    let stored = if BIG {
        word.to_be_bytes()
    } else {
        word.to_le_bytes()
    };
    bytes[at..at + 4].copy_from_slice(&stored);
}

/// None where the id is neither pattern.
pub fn is_big(dump: &[u8]) -> Option<bool> {
    match dump[..4] {
        [0x54, 0x58, 0x54, 0x42] => Some(true),
        [0x42, 0x54, 0x58, 0x54] => Some(false),
        _ => None,
    }
}
