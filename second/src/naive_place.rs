//! What begins at a place by other means: bytes taken off the front one by one,
//! and the list of blocks of an image that can be read.

use crate::answer::{pack_addresses, pack_block};
use crate::calls::{Case, Own};
use crate::image::read_image;
use crate::make::pad;
use crate::walk::STEP;

/// Both answers, or none where not all bytes are there.
fn by_bytes(image: &[u8], place: u64) -> Option<(u64, u64)> {
    let before = usize::try_from(place).ok()?;
    let mut rest = image.iter().copied().skip(before);
    let mut field = || {
        let bytes: Vec<u8> = rest.by_ref().take(4).collect();
        <[u8; 4]>::try_from(bytes).ok().map(u32::from_le_bytes)
    };
    let size = field()?;
    if size == 0 {
        return Some((0, 0));
    }
    let (load, run) = (field()?, field()?);
    let data = image.len() - rest.len();
    let wanted = size as usize + pad(size as usize);
    if rest.take(wanted).count() < wanted {
        return None;
    }
    Some((pack_block(data as u64, u64::from(size)), pack_addresses(u64::from(load), u64::from(run))))
}

/// In an image that can be read, at the place of one of its blocks: that block.
fn by_list(case: &Case) -> Option<(u64, u64)> {
    let blocks = read_image(&case.image.bytes).ok()?.blocks;
    let block = blocks.into_iter().find(|b| b.raw as u64 - 12 == case.number)?;
    Some((pack_block(block.raw as u64, block.size), pack_addresses(block.load, block.run)))
}

pub fn at_fault(case: &Case, own: &Own) -> Option<String> {
    let told = (own.code == 0).then_some((own.outcome.packed, own.outcome.addresses));
    let taken = by_bytes(&case.image.bytes, case.number);
    if taken != told {
        return Some(format!("taken off one by one {taken:x?}"));
    }
    match by_list(case) {
        Some(listed) if Some(listed) != told => Some(format!("in the list of blocks {listed:x?}")),
        _ => None,
    }
}

/// Over an image that can be read the walk meets exactly its blocks, in order,
/// and then the end flag, if it has room for as many.
pub fn walk_fault(case: &Case, own: &Own) -> Option<String> {
    let blocks = read_image(&case.image.bytes).ok()?.blocks;
    let room = (case.lent / STEP) as usize;
    let mut wanted = own.before.clone();
    for (block, step) in blocks.iter().zip(wanted.chunks_exact_mut(STEP as usize)) {
        step[..8].copy_from_slice(&pack_block(block.raw as u64, block.size).to_le_bytes());
        step[8..].copy_from_slice(&pack_addresses(block.load, block.run).to_le_bytes());
    }
    if own.after != wanted {
        return Some("the walk does not meet the blocks of the list".to_string());
    }
    let last = blocks.get(room).map_or(0, |b| pack_block(b.raw as u64, b.size));
    (own.outcome.packed != last).then(|| format!("the walk ends with {last:x}"))
}
