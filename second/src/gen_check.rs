//! Images that place the same as a file in another form, and images that do not.

use crate::answer::ADDRESSES;
use crate::make::Piece;
use crate::rng::Rng;

/// One block becomes two, its bytes and both addresses going on.
fn cut(rng: &mut Rng, blocks: &mut Vec<Piece>, which: usize) {
    let block = blocks[which].clone();
    if block.data.len() < 2 {
        return;
    }
    let at = rng.range(1, block.size() - 1) as usize;
    blocks[which] = Piece::new(block.load, block.run, &block.data[..at]);
    let rest = Piece::new(block.load + at as u32, block.run + at as u32, &block.data[at..]);
    blocks.insert(which + 1, rest);
}

/// Neighbours become one block where both addresses follow on.
pub fn join(blocks: &mut Vec<Piece>) {
    blocks.sort_by_key(|b| b.load);
    let mut joined: Vec<Piece> = Vec::new();
    for block in blocks.drain(..) {
        if let Some(last) = joined.last_mut() {
            let goes_on = u64::from(last.load) + last.size() == u64::from(block.load)
                && u64::from(last.run) + last.size() == u64::from(block.run);
            if goes_on {
                last.data.extend_from_slice(&block.data);
                continue;
            }
        }
        joined.push(block);
    }
    *blocks = joined;
}

/// The same placement by other blocks.
pub fn rearrange(rng: &mut Rng, blocks: &mut Vec<Piece>) {
    if rng.one_in(3) {
        join(blocks);
    }
    for _ in 0..rng.below(5) {
        if !blocks.is_empty() {
            let which = rng.index(blocks.len());
            cut(rng, blocks, which);
        }
    }
    if rng.one_in(8) {
        // down to single bytes
        *blocks = blocks.iter().flat_map(single_bytes).collect();
    }
    rng.shuffle(blocks);
}

fn single_bytes(block: &Piece) -> Vec<Piece> {
    let one = |(i, byte): (usize, &u8)| Piece::new(block.load + i as u32, block.run + i as u32, &[*byte]);
    block.data.iter().enumerate().map(one).collect()
}

/// Whether each block stays below 2^32 and no two load ranges meet.
fn lies_well(blocks: &[Piece]) -> bool {
    let mut ranges: Vec<(u64, u64)> = blocks.iter().map(|b| (u64::from(b.load), b.size())).collect();
    ranges.sort();
    ranges.iter().all(|r| r.0 + r.1 <= ADDRESSES)
        && ranges.windows(2).all(|w| w[0].0 + w[0].1 <= w[1].0)
        && blocks.iter().all(|b| u64::from(b.run) + b.size() <= ADDRESSES)
}

/// One change of the placement, by name. False when it cannot be made here.
fn change_one(rng: &mut Rng, blocks: &mut Vec<Piece>) -> Option<&'static str> {
    let kind = rng.below(9);
    if blocks.is_empty() || kind == 0 {
        let load = rng.range(0, ADDRESSES - 4) as u32;
        let length = rng.range(1, 4) as usize;
        blocks.push(Piece::new(load, rng.next() as u32 >> 1, &rng.bytes(length)));
        return Some("a block more");
    }
    let which = rng.index(blocks.len());
    let block = &mut blocks[which];
    let at = rng.index(block.data.len());
    match kind {
        1 => {
            block.data[at] ^= 1 << rng.below(8);
            Some("another byte")
        }
        2 => {
            block.run = match rng.below(4) {
                0 => block.run.wrapping_add(1),
                1 => block.run.wrapping_sub(1),
                2 if block.run != block.load => block.load,
                _ => block.run ^ 1 << rng.below(32),
            };
            Some("another run address")
        }
        3 => {
            blocks.remove(which);
            Some("a block less")
        }
        4 => {
            block.load = match rng.below(3) {
                0 => block.load.wrapping_add(1),
                1 => block.load.wrapping_sub(1),
                _ => rng.next() as u32,
            };
            Some("a block moved")
        }
        5 => {
            block.data.pop();
            if block.data.is_empty() {
                blocks.remove(which);
            }
            Some("the last byte missing")
        }
        6 => {
            block.data.push(rng.next() as u8);
            Some("a byte more")
        }
        7 => {
            block.data.remove(0);
            block.load = block.load.wrapping_add(1);
            block.run = block.run.wrapping_add(1);
            if block.data.is_empty() {
                blocks.remove(which);
            }
            Some("the first byte missing")
        }
        _ => {
            // Joined by load alone: the second one's run address gets lost.
            let next = block.load.wrapping_add(block.data.len() as u32);
            let run = block.run.wrapping_add(block.data.len() as u32);
            let other = blocks.iter().position(|b| b.load == next && b.run != run)?;
            let more = blocks[other].data.clone();
            blocks[which].data.extend(more);
            blocks.remove(other);
            Some("joined with a wrong run address")
        }
    }
}

/// Changes the placement in one way, keeping the image sound.
pub fn change(rng: &mut Rng, blocks: &mut Vec<Piece>) -> &'static str {
    loop {
        let mut changed = blocks.clone();
        if let Some(what) = change_one(rng, &mut changed) {
            if lies_well(&changed) {
                *blocks = changed;
                return what;
            }
        }
    }
}
