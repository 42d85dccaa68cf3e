//! Images and places in them, for the calls that take a place.

use crate::calls::{Call, Case, Input};
use crate::fields::put_u32;
use crate::given::{given_image, some_image};
use crate::make::{pad, Image};
use crate::rng::Rng;
use crate::walk::STEP;

/// Size fields with which a sum may wrap or a width not be enough.
pub const SIZES: [u32; 13] = [
    0, 1, 3, 4, 5, 0x00ff_ffff, 0x0fff_ffff, 0x1000_0000, 0x8000_0000, 0xffff_fffc, 0xffff_fffd, 0xffff_fffe, 0xffff_ffff,
];

/// The code at a place with this size field, where so many bytes are left from
/// the place on.
pub fn code_with(size: u32, left: usize) -> u8 {
    let whole = 12 + size as u64 + pad(size as usize) as u64;
    if size == 0 || whole <= left as u64 {
        0
    } else {
        21
    }
}

/// Places whose lowest 32 bits or whose sums with a few bytes are others.
pub fn far(rng: &mut Rng, place: u64) -> u64 {
    match rng.below(4) {
        0 => (1 << 32) + place,
        1 => rng.range(1, 0xffff_ffff) << 32 | place,
        2 => u64::MAX - rng.below(20),
        _ => (1 << 63) + place,
    }
}

/// Bytes of which any four may be taken for the size of a block that is there.
fn crumbs(rng: &mut Rng) -> Vec<u8> {
    let length = rng.index(80);
    (0..length).map(|_| if rng.one_in(3) { rng.below(14) as u8 } else { 0 }).collect()
}

/// A size field around what the rest of the image has room for.
fn around(rng: &mut Rng) -> Case {
    let length = 4 + rng.index(60);
    let mut bytes = rng.bytes(length);
    let place = rng.index(length - 3);
    let left = length - place;
    let size = match rng.below(4) {
        0 => rng.pick(&SIZES),
        _ => (left as u32 + 4).saturating_sub(12 + rng.below(9) as u32),
    };
    put_u32(&mut bytes, place, size);
    let code = code_with(size, left);
    Case::new(Call::BlockAt, "a size field").image_input(Input::of(bytes)).number(place as u64).expect_at(code, 0)
}

/// At a block or at the end flag of a sound image.
fn at_block(rng: &mut Rng, image: &Image) -> Case {
    let place = image.offset(rng.index(image.blocks.len() + 1)) as u64;
    Case::new(Call::BlockAt, "sound image").image_input(image.input()).number(place).expect_at(0, 0)
}

pub fn block_at(rng: &mut Rng) -> Case {
    let image = some_image(rng);
    let way = rng.below(8);
    match way {
        0 | 1 => return at_block(rng, &image),
        2 | 3 => return around(rng),
        _ => {}
    }
    let (what, input) = match way {
        4 => ("crumbs".to_string(), Input::of(crumbs(rng))),
        _ => {
            let given = given_image(rng, &image);
            (given.what, given.input)
        }
    };
    let place = match rng.below(3) {
        0 => image.offset(rng.index(image.blocks.len() + 1)) as u64,
        _ => rng.below(input.bytes.len() as u64 + 6),
    };
    let place = if rng.one_in(12) { far(rng, place) } else { place };
    Case::new(Call::BlockAt, &what).image_input(input).number(place)
}

/// With room for all blocks, but for a few.
pub fn walk(rng: &mut Rng) -> Case {
    let image = some_image(rng);
    let given = given_image(rng, &image);
    let steps = match rng.below(8) {
        0 => rng.below(image.blocks.len() as u64 + 1),
        _ => image.blocks.len() as u64 + rng.below(4),
    };
    let case = Case::new(Call::Walk, &given.what).image_input(given.input).lent(STEP * steps + rng.below(STEP));
    match given.code {
        Some(0) => case.expect_at(0, 0),
        Some(20) => case.expect_at(20, 0),
        _ => case,
    }
}
