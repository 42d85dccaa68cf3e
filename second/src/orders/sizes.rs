//! Blocks of one byte to nine in each order: each byte of the data, of the padding and of
//! the end flag where it stands, and each place to end at.

use super::{block, image, number, place, refuses};
use crate::answer::{pack_block, pack_load, pack_read};
use crate::bench::refused;
use crate::calls::{Call, Case};
use crate::make::{optional_header, pad, File, Section};
use crate::order::ORDERS;

/// No byte is 0, so that one that comes to lie in the padding is told.
const DATA: [u8; 9] = [0x11, 0x22, 0x33, 0x44, 0x55, 0x66, 0x77, 0x88, 0x99];
const LOAD: u32 = 0x400;
const RUN: u32 = 0x8000_0102;
const ENTRY: u32 = 0x0123_4567;

fn one(size: usize, order: u32) -> Vec<u8> {
    image(ENTRY, &[block(LOAD, RUN, &DATA[..size], order)], order)
}

/// The file whose image it is.
fn file(size: usize) -> Vec<u8> {
    let mut file = File::empty();
    file.optional = optional_header(0x0108, ENTRY);
    let raw = file.headers_end() as u32 + 48;
    file.sections.push(Section { run: RUN, load: LOAD, size: size as u32, raw, flags: 0x20, ..Section::default() });
    file.body = DATA[..size].to_vec();
    file.bytes()
}

fn new(call: Call, what: &str, size: usize, image: &[u8], order: u32) -> Case {
    Case::new(call, &format!("size {size}, order {order}: {what}")).image(image).order(order)
}

fn sound(size: usize, order: u32, all: &mut Vec<Case>) {
    let image = one(size, order);
    let new = |call: Call, what: &str| new(call, what, size, &image, order);
    let found = pack_block(16, size as u64);
    all.push(new(Call::ReadWith, "read").expect_whole(pack_read(ENTRY, 1), &[]));
    all.push(new(Call::BlockWith, "its block").expect_whole(found, &[]));
    all.push(new(Call::BlockWith, "no such block").number(1).expect_at(30, 0));
    all.push(new(Call::BlockAtWith, "its place").number(4).expect_whole(found, &[]));
    let flag = image.len() as u64 - 4;
    all.push(new(Call::BlockAtWith, "the end flag").number(flag).expect_whole(0, &[]));
    all.push(new(Call::WalkWith, "walked").lent(40).expect_at(0, 0));
    // Exactly its size is written: what lies behind stays, in fours or not.
    for more in 0..5 {
        let case = new(Call::LoadImageWith, "loaded").number(u64::from(LOAD)).lent(size as u64 + more);
        all.push(case.expect_whole(pack_load(size as u64), &DATA[..size]));
    }
    let short = new(Call::LoadImageWith, "a byte short").number(u64::from(LOAD)).lent(size as u64 - 1);
    all.push(short.expect_whole(refused(29, 0), &[]));
    all.push(new(Call::CheckWith, "checked").file(&file(size)).expect_at(0, 0));
    let convert = Case::new(Call::ConvertWith, &format!("size {size}, order {order}")).file(&file(size)).order(order);
    for (room, code) in [(flag + 3, 15), (flag + 4, 0), (flag + 9, 0)] {
        all.push(convert.clone().lent(room).expect_at(code, 0));
    }
}

/// Each byte of the area another one, at the place where it stands.
fn changed(size: usize, order: u32, all: &mut Vec<Case>) {
    for byte in 0..size + pad(size) {
        for value in [1, 0x80, 0xff] {
            let mut image = one(size, order);
            let at = 16 + place(byte, order);
            let before = image[at];
            image[at] = before ^ value;
            let new = |call: Call, what: &str| new(call, what, size, &image, order);
            if byte >= size {
                refuses(&format!("size {size}, order {order}: padding {}", byte - size), &image, order, 25, 0, all);
                let found = pack_block(16, size as u64);
                all.push(new(Call::BlockAtWith, "padding is not looked at").number(4).expect_whole(found, &[]));
                all.push(new(Call::WalkWith, "padding is not looked at").lent(20).expect_at(0, 0));
                continue;
            }
            all.push(new(Call::CheckWith, "a byte changed").file(&file(size)).expect_at(41, 0));
            all.push(new(Call::ReadWith, "a byte changed").expect_at(0, 0));
            all.push(new(Call::LoadImageWith, "a byte changed").number(u64::from(LOAD)).lent(12).expect_at(0, 0));
        }
    }
}

/// Ended at each byte, and longer.
fn ended(size: usize, order: u32, all: &mut Vec<Case>) {
    let image = one(size, order);
    let flag = image.len() - 4;
    for end in 0..image.len() {
        let left = &image[..end];
        let whole = u64::from(end >= flag);
        refuses(&format!("size {size}, order {order}: ended at {end}"), left, order, 21, whole, all);
        let code = if end >= flag { 0 } else { 21 };
        all.push(new(Call::BlockAtWith, "ended", size, left, order).number(4).expect_at(code, 0));
        all.push(new(Call::WalkWith, "ended", size, left, order).lent(32).expect_at(21, 0));
    }
    for more in [vec![0], vec![0; 4], vec![1], vec![0, 0, 0, 1], vec![1, 0, 0, 0], vec![0xff; 16]] {
        let longer = [image.clone(), more].concat();
        refuses(&format!("size {size}, order {order}: longer"), &longer, order, 26, 1, all);
        all.push(new(Call::WalkWith, "longer", size, &longer, order).lent(32).expect_at(0, 0));
    }
    // A size field wherever its byte stands; no block is there for it.
    for at in flag..flag + 4 {
        let mut image = image.clone();
        image[at] = 1;
        refuses(&format!("size {size}, order {order}: byte {at} no end flag"), &image, order, 21, 1, all);
        all.push(new(Call::WalkWith, "no end flag", size, &image, order).lent(32).expect_at(21, 0));
    }
}

/// A second block, whose padding is wrong, or which meets the first.
fn second(size: usize, order: u32, all: &mut Vec<Case>) {
    let first = block(LOAD, RUN, &DATA[..size], order);
    let after = LOAD + size as u32;
    for other in 1..=9 {
        let blocks = [first.clone(), block(after, 0, &DATA[..other], order)];
        let sound = image(ENTRY, &blocks, order);
        let what = format!("size {size} and {other}, order {order}");
        let load = Case::new(Call::LoadImageWith, &what).image(&sound).order(order).number(u64::from(LOAD));
        all.push(load.lent((size + other) as u64).expect_at(0, 0));
        for byte in other..other + pad(other) {
            let mut image = sound.clone();
            image[4 + first.len() + 12 + place(byte, order)] = 0x40;
            refuses(&format!("{what}: padding"), &image, order, 25, 1, all);
        }
        let meeting = [first.clone(), block(after - 1, 0, &DATA[..other], order)];
        refuses(&format!("{what}: meeting"), &image(ENTRY, &meeting, order), order, 27, 1, all);
        // Its size is one byte more than area and end flag have.
        let mut long = sound.clone();
        let field = number((other + pad(other) + 5) as u32, order);
        long[4 + first.len()..][..4].copy_from_slice(&field);
        refuses(&format!("{what}: longer than the rest"), &long, order, 21, 1, all);
    }
}

pub fn cases(all: &mut Vec<Case>) {
    for order in ORDERS {
        for size in 1..=9 {
            sound(size, order, all);
            changed(size, order, all);
            ended(size, order, all);
            second(size, order, all);
        }
    }
}
