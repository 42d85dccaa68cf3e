//! Sound images.

use crate::layout::{layout, size};
use crate::make::{Image, Piece};
use crate::rng::Rng;

pub fn sound_of(rng: &mut Rng, sizes: &[u64]) -> Image {
    let places = layout(rng, sizes);
    let blocks = (0..sizes.len())
        .map(|i| Piece::new(places.loads[i], places.runs[i], &rng.bytes(sizes[i] as usize)))
        .collect();
    Image::new(rng.next() as u32, blocks)
}

pub fn sound(rng: &mut Rng) -> Image {
    let blocks = match rng.below(12) {
        0 => 0,
        1..=4 => 1,
        5..=7 => 2,
        8 | 9 => 3,
        _ => rng.range(4, 10),
    };
    let sizes: Vec<u64> = (0..blocks).map(|_| size(rng, 1)).collect();
    sound_of(rng, &sizes)
}

/// This many blocks of one to five bytes.
pub fn many(rng: &mut Rng, blocks: usize) -> Image {
    let sizes: Vec<u64> = (0..blocks).map(|_| rng.range(1, 5)).collect();
    sound_of(rng, &sizes)
}

/// First load address and one more than the last.
pub fn hull(blocks: &[Piece]) -> (u64, u64) {
    let low = blocks.iter().map(|b| u64::from(b.load)).min();
    let high = blocks.iter().map(|b| u64::from(b.load) + b.size()).max();
    (low.unwrap_or(0), high.unwrap_or(0))
}
