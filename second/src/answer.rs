//! Refusals, and how answers are packed into one 64-bit number.

/// No file, image or window may be longer than this.
pub const MOST: u64 = 16_777_216;

/// One more than the last address.
pub const ADDRESSES: u64 = 1 << 32;

/// Code and index are what a caller sees. The cause tells apart the different
/// ways to one code, and `plain` whether the section that it is of has no type
/// flag; only the coverage table uses them.
#[derive(Clone, Copy, Debug, PartialEq, Eq)]
pub struct Refusal {
    pub code: u8,
    pub index: u64,
    pub cause: &'static str,
    pub plain: bool,
}

/// A refusal whose code has one cause only.
pub fn refusal(code: u8, index: usize) -> Refusal {
    because(code, index, "")
}

pub fn because(code: u8, index: usize, cause: &'static str) -> Refusal {
    Refusal { code, index: index as u64, cause, plain: false }
}

/// The lowest 8 bits are the code, the bits above it the index.
pub fn pack_refusal(r: &Refusal) -> u64 {
    u64::from(r.code) | r.index << 8
}

/// Image length in bits 8 to 39, kept sections in bits 40 to 63.
pub fn pack_convert(length: u64, kept: u64) -> u64 {
    length << 8 | kept << 40
}

/// Length of the text in bits 8 to 63.
pub fn pack_list(length: u64) -> u64 {
    length << 8
}

/// Entry point in bits 8 to 39, block count in bits 40 to 63.
pub fn pack_read(entry: u32, blocks: u64) -> u64 {
    u64::from(entry) << 8 | blocks << 40
}

/// Offset of the raw bytes in bits 8 to 35, size in bits 36 to 63.
pub fn pack_block(offset: u64, size: u64) -> u64 {
    offset << 8 | size << 36
}

/// Load address in bits 0 to 31, run address in bits 32 to 63.
pub fn pack_addresses(load: u64, run: u64) -> u64 {
    load | run << 32
}

/// Bytes placed in bits 8 to 63.
pub fn pack_load(placed: u64) -> u64 {
    placed << 8
}
