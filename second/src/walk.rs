//! What begins at a place of an image, and walking it from block to block. The
//! image need not be one that can be read.

use crate::answer::{because, pack_addresses, pack_block, pack_refusal, refusal, Refusal, MOST};
use crate::fields::{u32_at, up_to_four};
use crate::order::{read_order, turned_at, undone};
use crate::program::Block;

/// Where the first block begins.
pub const FIRST_PLACE: u64 = 4;

/// How many bytes of the lent buffer a block takes in a walk.
pub const STEP: u64 = 16;

/// The block that begins at this place; none is the end flag.
pub fn block_at(image: &[u8], place: u64) -> Result<Option<Block>, Refusal> {
    let length = image.len() as u128;
    if length > u128::from(MOST) {
        return Err(refusal(20, 0));
    }
    // In 128 bits no place makes a sum wrap.
    let at = u128::from(place);
    if at >= length {
        return Err(because(21, 0, "place"));
    }
    if at + 4 > length {
        return Err(because(21, 0, "size field"));
    }
    let field = |offset: usize| u64::from(u32_at(image, at as usize + offset));
    let size = field(0);
    if size == 0 {
        return Ok(None);
    }
    let raw = at + 12;
    if raw > length {
        return Err(because(21, 0, "address fields"));
    }
    if raw + u128::from(size) > length {
        return Err(because(21, 0, "data"));
    }
    if raw + u128::from(up_to_four(size)) > length {
        return Err(because(21, 0, "padding"));
    }
    Ok(Some(Block { index: 0, load: field(4), run: field(8), size, raw: raw as usize }))
}

/// The same of an image in this order: the fields at the place are read in it.
pub fn block_at_with(image: &[u8], place: u64, order: u32) -> Result<Option<Block>, Refusal> {
    let order = read_order(order)?;
    block_at(&turned_at(image, place, order), place)
}

/// Both answers for a place, packed: of the end flag every figure is 0.
pub fn pack_at(found: &Result<Option<Block>, Refusal>) -> (u64, u64) {
    match found {
        Ok(Some(b)) => (pack_block(b.raw as u64, b.size), pack_addresses(b.load, b.run)),
        Ok(None) => (0, 0),
        Err(r) => (pack_refusal(r), 0),
    }
}

/// From the first place on to the end flag, to a refusal, or until the lent
/// buffer is full. It receives both answers at each block; what was answered
/// last is handed back.
pub fn walk(image: &[u8], lent: &mut [u8]) -> Result<Option<Block>, Refusal> {
    let mut place = FIRST_PLACE;
    let mut steps = lent.chunks_exact_mut(STEP as usize);
    loop {
        let found = block_at(image, place)?;
        let (block, step) = match (&found, steps.next()) {
            (Some(block), Some(step)) => (block, step),
            _ => return Ok(found),
        };
        place = block.raw as u64 + up_to_four(block.size);
        let (packed, addresses) = pack_at(&Ok(found));
        step[..8].copy_from_slice(&packed.to_le_bytes());
        step[8..].copy_from_slice(&addresses.to_le_bytes());
    }
}

/// A walk comes to no other places than those that undoing does.
pub fn walk_with(image: &[u8], lent: &mut [u8], order: u32) -> Result<Option<Block>, Refusal> {
    let order = read_order(order)?;
    walk(&undone(image, order), lent)
}
