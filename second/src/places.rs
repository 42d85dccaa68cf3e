//! Images that end at every byte, asked at every place; every length that is
//! hardly one; and size fields on both sides of what is left behind them.

use crate::calls::{Call, Case};
use crate::every::spread;
use crate::fields::put_u32;
use crate::gen_image;
use crate::gen_place::{code_with, far, SIZES};
use crate::rng::Rng;
use crate::walk::STEP;

fn at(what: &str, image: &[u8], place: u64) -> Case {
    Case::new(Call::BlockAt, what).image(image).number(place)
}

/// Every end, and from every end every place up to a few bytes past it; and
/// walks over what is left.
fn ended(rng: &mut Rng, sizes: &[u64], all: &mut Vec<Case>) {
    let image = gen_image::sound_of(rng, sizes).bytes();
    for end in 0..=image.len() {
        let left = &image[..end];
        for place in 0..end as u64 + 6 {
            let case = at("ended image", left, place);
            let nothing_there = place + 4 > end as u64;
            all.push(if nothing_there { case.expect_at(21, 0) } else { case });
        }
        let case = Case::new(Call::Walk, "ended image").image(left).lent(STEP * (sizes.len() as u64 + 1));
        all.push(case.expect_at(if end < image.len() { 21 } else { 0 }, 0));
    }
    for place in 0..image.len() as u64 {
        all.push(at("far place", &image, far(rng, place)).expect_at(21, 0));
    }
    for k in 0..20 {
        all.push(at("last place", &image, u64::MAX - k).expect_at(21, 0));
    }
}

/// Images of 0 to 16 bytes, all of them alike.
fn short(all: &mut Vec<Case>) {
    for byte in [0, 1, 4, 0xff] {
        for length in 0..=16 {
            let image = vec![byte; length];
            for place in (0..=20).chain([1 << 32, u64::MAX]) {
                let code = if byte == 0 && place.saturating_add(4) <= length as u64 { 0 } else { 21 };
                all.push(at("short image", &image, place).expect_at(code, 0));
            }
            let case = Case::new(Call::Walk, "short image").image(&image).lent(STEP);
            all.push(case.expect_at(if byte == 0 && length >= 8 { 0 } else { 21 }, 0));
        }
    }
}

/// Each size field, at places of every alignment, with each number of bytes left
/// from there on.
fn fields(rng: &mut Rng, all: &mut Vec<Case>) {
    for place in 0..6 {
        for size in SIZES.into_iter().chain(6..=12) {
            for left in 4..=28 {
                let mut image = rng.bytes(place + left);
                put_u32(&mut image, place, size);
                all.push(at("size field", &image, place as u64).expect_at(code_with(size, left), 0));
            }
        }
    }
}

pub fn cases(seed: u64) -> Vec<Case> {
    let mut rng = Rng::new(seed, 79);
    let rng = &mut rng;
    let mut all = Vec::new();
    for sizes in [&[1, 4, 6][..], &[2, 3], &[5, 7, 8], &[9], &[]] {
        ended(rng, sizes, &mut all);
    }
    short(&mut all);
    fields(rng, &mut all);
    spread(rng, &mut all);
    all
}
