//! The sizes and the allowed values that documents 01 and 02 name.

pub const ID: u32 = 0x5458_5442;
pub const HEADER_SIZE: usize = 48;
pub const SLOT_SIZE: usize = 32;
pub const ENTRY_FIXED_SIZE: usize = 16;
pub const LARGEST_DUMP: usize = 65_536;
pub const LARGEST_NAME_FILE: usize = 65_536;
pub const FREE: u8 = 1;
pub const THREAD: u8 = 1;
pub const INIT_POINTER: u32 = 0xF0F0_F0F0;
pub const ISR_POINTER: u32 = 0xFFFF_FFFF;
/// Two to the 53 shares its double with the number after it; no number below shares one.
pub const FIRST_QUOTED: u64 = 1 << 53;
pub const UNITS: u32 = 1 << 24;
pub const SERIALS: u64 = 1 << 40;

/// Ones at the bottom and nothing above them, at least one.
pub fn mask_allowed(mask: u32) -> bool {
    mask != 0 && mask & mask.wrapping_add(1) == 0
}

pub fn name_size_allowed(name_size: u16) -> bool {
    name_size % 4 == 0 && (4..=64).contains(&name_size)
}

pub fn kind_allowed(kind: u8) -> bool {
    matches!(kind, 1..=14 | 21..=28)
}
