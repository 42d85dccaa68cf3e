//! What lent bytes hold before a call. Both sides of the pipe make the same
//! table, so that only a place in it goes over the pipe.

use std::sync::Mutex;

use crate::answer::MOST;

/// The longest buffer that lies between guard pages. Longer ones lie in a large
/// area of zeros that is never written as a whole.
pub const GUARDED_MOST: u64 = MOST + 65_536;

/// Fills below this are places in the table. From here on the lowest byte of
/// the number fills the whole buffer.
pub const FILL_BYTE: u32 = 65_536;

/// Made when it is first asked for.
static TABLE: Mutex<Vec<u8>> = Mutex::new(Vec::new());

fn made() -> Vec<u8> {
    let length = GUARDED_MOST as usize + FILL_BYTE as usize;
    let mut bytes = Vec::with_capacity(length);
    let mut x: u64 = 0x9e37_79b9_7f4a_7c15;
    while bytes.len() < length {
        x ^= x << 13;
        x ^= x >> 7;
        x ^= x << 17;
        bytes.extend_from_slice(&x.to_le_bytes());
    }
    bytes
}

fn from_table(at: usize, length: usize) -> Vec<u8> {
    let mut table = TABLE.lock().unwrap();
    if table.is_empty() {
        *table = made();
    }
    table[at..at + length].to_vec()
}

/// The contents of a lent buffer before the call. A length over the guarded
/// one is cut down to one byte over the limit of all buffers: every call treats
/// all such lengths alike.
pub fn before(length: u64, fill: u32) -> Vec<u8> {
    if length > GUARDED_MOST {
        return vec![0; MOST as usize + 1];
    }
    let length = length as usize;
    if fill >= FILL_BYTE {
        return vec![fill as u8; length];
    }
    from_table(fill as usize, length)
}
