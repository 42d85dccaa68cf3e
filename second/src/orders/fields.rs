//! Numbers that another order makes large, small or the same; images that can be read in
//! two orders.

use super::{block, image, number, refuses};
use crate::answer::{pack_read, ADDRESSES};
use crate::calls::{Call, Case};
use crate::gen_place::{code_with, SIZES};
use crate::order::ORDERS;
use crate::rng::Rng;

/// Sizes of which a part of the bytes is 0.
const PARTS: [u32; 14] = [
    0x100, 0x400, 0xff00, 0x1_0000, 0x8_0000, 0x100_0000, 0x300_0000, 0x400_0000, 0x500_0000, 0x800_0000, 0xff00_0000, 0x100_0001,
    0x80, 0x8000,
];

fn value(bytes: [u8; 4], order: u32) -> u32 {
    if order % 2 == 1 { u32::from_be_bytes(bytes) } else { u32::from_le_bytes(bytes) }
}

/// Each size field as it stands, at places of every alignment, with each number of bytes
/// left from there on.
fn size_fields(rng: &mut Rng, order: u32, all: &mut Vec<Case>) {
    for stands in SIZES.into_iter().chain(PARTS).flat_map(|size| [size.to_le_bytes(), size.to_be_bytes()]) {
        let size = value(stands, order);
        for place in 0..5 {
            for left in (4..=24).chain([267, 268, 271, 272]) {
                let mut image = rng.bytes(place + left);
                image[place..place + 4].copy_from_slice(&stands);
                let case = Case::new(Call::BlockAtWith, "a size field").image(&image).number(place as u64).order(order);
                all.push(case.expect_at(code_with(size, left), 0));
            }
        }
        // The same for the first block of an image, which ends behind so many bytes.
        for left in [4, 12, 16, 20, 268, 272] {
            let mut image = vec![0; 4 + left];
            image[4..8].copy_from_slice(&stands);
            let what = format!("a first size field {stands:x?}, order {order}");
            if code_with(size, left) == 21 {
                refuses(&what, &image, order, 21, 0, all);
            }
            let walk = Case::new(Call::WalkWith, &what).image(&image).order(order).lent(64);
            all.push(if code_with(size, left) == 21 { walk.expect_at(21, 0) } else { walk });
        }
    }
}

/// Entry points and addresses, each byte of which counts.
fn numbers(order: u32, all: &mut Vec<Case>) {
    for value in [0, 1, 0x80, 0x100, 0x1_0000, 0x100_0000, 0x8000_0000, 0x0102_0304, 0xfedc_ba98, 0xffff_fff0] {
        let image = image(value, &[block(value, value ^ 7, &[1, 2, 3], order)], order);
        let new = |call: Call| Case::new(call, &format!("{value:x} in order {order}")).image(&image).order(order);
        all.push(new(Call::ReadWith).expect_whole(pack_read(value, 1), &[]));
        all.push(new(Call::BlockWith).expect_at(0, 0));
        all.push(new(Call::BlockAtWith).number(4).expect_at(0, 0));
        all.push(new(Call::WalkWith).lent(16).expect_at(0, 0));
        all.push(new(Call::LoadImageWith).number(value.into()).lent(3).expect_at(0, 0));
        all.push(new(Call::LoadImageWith).number(u64::from(value) + 1).lent(3).expect_at(29, 0));
    }
}

/// Ranges that end at 2^32 in one order, and elsewhere in another.
fn ranges(order: u32, all: &mut Vec<Case>) {
    for size in 2..=5usize {
        let data = &[9; 5][..size];
        let top = (ADDRESSES - size as u64) as u32;
        let what = format!("size {size}, order {order}");
        let top_image = image(0, &[block(top, top, data, order)], order);
        let load = Case::new(Call::LoadImageWith, &what).image(&top_image).order(order);
        all.push(load.number(top.into()).lent(size as u64).expect_at(0, 0));
        refuses(&what, &image(0, &[block(top + 1, top, data, order)], order), order, 23, 0, all);
        refuses(&what, &image(0, &[block(top, top + 1, data, order)], order), order, 24, 0, all);
        refuses(&what, &image(0, &[block(top + 1, top + 1, data, order)], order), order, 23, 0, all);
    }
}

/// Numbers and data that are the same from behind, told any order.
fn from_behind(all: &mut Vec<Case>) {
    let size = u32::from_le_bytes([0, 1, 1, 0]) as usize;
    let data: Vec<u8> = (0..size).map(|i| [1, (i / 4) as u8, (i / 4) as u8, 1][i % 4]).collect();
    let same = image(0x1234_3412, &[block(0x7800_0078, 0x0056_5600, &data, 0)], 0);
    for order in ORDERS {
        let new = |call: Call| Case::new(call, &format!("the same from behind, told {order}")).image(&same).order(order);
        all.push(new(Call::ReadWith).expect_whole(pack_read(0x1234_3412, 1), &[]));
        all.push(new(Call::BlockWith).expect_at(0, 0));
        all.push(new(Call::LoadImageWith).number(0x7800_0078).lent(size as u64).expect_at(0, 0));
        all.push(new(Call::WalkWith).lent(48).expect_at(0, 0));
    }
}

/// A size of 256 that is 65536 from behind; so many bytes are there. Of order 0 or 2 there
/// are 26, of order 1 or 3 one block.
fn one_in_two(all: &mut Vec<Case>) {
    let mut two = [number(7, 0), number(256, 0), number(0, 0), number(0, 0)].concat();
    two.resize(16 + 65_536 + 4, 0);
    for order in ORDERS {
        let what = format!("256 or 65536, told {order}");
        let read = Case::new(Call::ReadWith, &what).image(&two).order(order);
        let walk = Case::new(Call::WalkWith, &what).image(&two).order(order).lent(48);
        match order {
            0 | 2 => refuses(&what, &two, order, 26, 1, all),
            _ => all.push(read.expect_whole(pack_read(0x0700_0000, 1), &[])),
        }
        all.push(walk.expect_at(0, 0));
    }
}

pub fn cases(rng: &mut Rng, all: &mut Vec<Case>) {
    for order in ORDERS {
        size_fields(rng, order, all);
        numbers(order, all);
        ranges(order, all);
    }
    from_behind(all);
    one_in_two(all);
}
