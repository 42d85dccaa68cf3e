//! Faults put into images.

use crate::fault_file::{length_over, meeting, too_high};
use crate::make::{pad, Image};
use crate::rng::Rng;

/// Rules that an image can break, apart from the number of blocks.
pub const IMAGE_FAULTS: [u8; 7] = [20, 21, 23, 24, 25, 26, 27];

/// The image ends inside block `at`, or inside the end flag if there is no
/// such block.
fn end_inside(rng: &mut Rng, image: &mut Image, at: usize) {
    let begin = image.offset(at);
    if at == image.blocks.len() {
        image.cut = Some(begin + rng.index(4));
        return;
    }
    let block = &image.blocks[at];
    let data_end = begin + 12 + block.data.len();
    image.cut = Some(match rng.below(6) {
        0 => begin + rng.index(4),
        1 => begin + 4 + rng.index(8),
        2 => begin + 12 + rng.index(block.data.len()),
        3 => data_end - 1,
        4 if block.space() > 12 + block.data.len() => data_end + rng.index(pad(block.data.len())),
        _ => begin + rng.index(block.space()),
    });
}

/// The block says that it is longer than the rest of the image.
fn size_too_large(rng: &mut Rng, image: &mut Image, at: usize) {
    let total = image.bytes().len();
    // Nothing is left of it where the image was cut before.
    let left = total.saturating_sub(image.offset(at) + 12) as u32;
    image.blocks[at].size = Some(match rng.below(5) {
        0 => left + 1,
        1 => 0xffff_ffff,
        2 => 0xffff_fffc + rng.below(3) as u32,
        3 => 0x8000_0000,
        _ => rng.range(u64::from(left) + 1, 0xffff_ffff) as u32,
    });
}

/// Puts the fault with this code into the image, into block `at` where it is
/// one of a block. False when there is nothing to put it into.
pub fn damage(rng: &mut Rng, image: &mut Image, code: u8, at: usize) -> bool {
    match code {
        20 => image.length = Some(length_over(rng, image.bytes().len() as u64)),
        21 => {
            if rng.one_in(12) {
                image.cut = Some(rng.index(4));
            } else if at < image.blocks.len() && rng.one_in(4) {
                size_too_large(rng, image, at);
            } else {
                end_inside(rng, image, at.min(image.blocks.len()));
            }
        }
        23 | 24 => {
            let block = match image.blocks.get_mut(at) {
                Some(block) => block,
                None => return false,
            };
            match too_high(rng, block.size()) {
                Some(load) if code == 23 => block.load = load,
                Some(run) => block.run = run,
                None => return false,
            }
        }
        25 => {
            let block = match image.blocks.get_mut(at) {
                Some(block) => block,
                None => return false,
            };
            let length = pad(block.data.len());
            if length == 0 {
                return false;
            }
            let mut padding = vec![0; length];
            padding[rng.index(length)] = rng.range(1, 255) as u8;
            block.padding = Some(padding);
        }
        26 => {
            let length = rng.range(1, 9) as usize;
            let more = if rng.one_in(2) { vec![0; length] } else { rng.bytes(length) };
            image.end.extend(more);
        }
        27 => {
            if at == 0 || at >= image.blocks.len() {
                return false;
            }
            let earlier = &image.blocks[rng.index(at)];
            let (load, size) = (u64::from(earlier.load), earlier.size());
            let later = &mut image.blocks[at];
            later.load = meeting(rng, later.size(), load, size);
        }
        _ => unreachable!("no fault of an image has code {code}"),
    }
    true
}
