//! Numbers in lent bytes, high byte first, and packed fields, most significant first.

pub fn pair(bytes: &[u8], at: usize) -> u16 {
    u16::from_be_bytes([bytes[2 * at], bytes[2 * at + 1]])
}

pub fn put_pair(bytes: &mut [u8], at: usize, value: u16) {
    bytes[2 * at..2 * at + 2].copy_from_slice(&value.to_be_bytes());
}

pub fn word(bytes: &[u8], at: usize) -> u32 {
    u32::from_be_bytes(bytes[4 * at..4 * at + 4].try_into().unwrap())
}

pub fn put_word(bytes: &mut [u8], at: usize, value: u32) {
    bytes[4 * at..4 * at + 4].copy_from_slice(&value.to_be_bytes());
}

pub fn row(bytes: &[u8], at: usize) -> u64 {
    u64::from_be_bytes(bytes[8 * at..8 * at + 8].try_into().unwrap())
}

/// `width` bits of a row, starting `from` bits below its top.
pub const fn field(row: u64, from: u32, width: u32) -> u64 {
    row << from >> (64 - width)
}
