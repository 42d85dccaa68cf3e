//! What begins at a place where the limit of lengths is near, and walks over
//! images that can and cannot be read; the version.

use super::Maker;
use crate::answer::{ADDRESSES, MOST};
use crate::calls::{Call, Case, Input};
use crate::gen_image;
use crate::make::{Image, Piece};
use crate::rng::Rng;
use crate::walk::STEP;

/// An image of this length that says it has one block of this size; all bytes
/// of the block are 0.
fn long(size: u64, length: u64) -> Input {
    let mut image = Image::new(7, vec![Piece::new(0x1234_5678, 0x9abc_def0, &[])]);
    image.blocks[0].size = Some(size as u32);
    image.end.clear();
    Input::longer(image.bytes(), length)
}

pub fn long_images(all: &mut Vec<Maker>) {
    let mut add = |what: &'static str, length: u64, size: u64, place: u64, code: u8| {
        all.push(Box::new(move || {
            let case = Case::new(Call::BlockAt, what).image_input(long(size, length));
            case.number(place).expect_at(code, 0)
        }));
    };
    for length in [MOST - 1, MOST] {
        let room = (length - 16) / 4 * 4;
        add("a block up to the end", length, room, 4, 0);
        add("a block one byte short of the end", length, room - 1, 4, 0);
        add("a block past the end", length, room + 1, 4, 21);
        add("the size of the image", length, length, 4, 21);
        add("the last end flag", length, 1, length - 4, 0);
        add("no whole size field", length, 1, length - 3, 21);
        add("the last byte", length, 1, length - 1, 21);
        add("the end", length, 1, length, 21);
        add("past the end", length, 1, length + 1, 21);
        add("2^32 more", length, 1, ADDRESSES + 4, 21);
    }
    for place in [0, 4, MOST - 3, MOST + 1, MOST + 2, ADDRESSES + 4, u64::MAX] {
        add("an image one over", MOST + 1, 1, place, 20);
    }
    add("image length 2^32 more", ADDRESSES + 20, 1, 4, 20);
    add("image length 2^32", ADDRESSES, 1, u64::MAX, 20);
}

fn walks(all: &mut Vec<Maker>, what: &'static str, code: u8, make: impl Fn() -> Input + 'static) {
    all.push(Box::new(move || {
        Case::new(Call::Walk, what).image_input(make()).lent(STEP * 4100).expect_at(code, 0)
    }));
}

pub fn walked(all: &mut Vec<Maker>) {
    let many = |blocks: usize| gen_image::many(&mut Rng::new(11, blocks as u64), blocks);
    for blocks in [4095, 4096, 4097, 4099] {
        walks(all, "about 4096 blocks", 0, move || many(blocks).input());
    }
    walks(all, "more blocks than room", 0, move || many(4105).input());
    walks(all, "one block of all bytes but 20", 0, || {
        Image::new(1, vec![Piece::new(0, 0, &vec![3; MOST as usize - 20])]).input()
    });
    walks(all, "an image one over", 20, || long(1, MOST + 1));
    walks(all, "no end flag after the longest block", 21, || long(MOST - 16, MOST));
    walks(all, "an end flag after the longest block", 0, || long(MOST - 20, MOST));
    walks(all, "bytes after the end flag", 0, move || {
        let mut image = many(3);
        image.end.extend([1, 2, 3]);
        image.input()
    });
    walks(all, "blocks that meet, run past 2^32 and have other padding", 0, || {
        let mut piece = Piece::new(0xffff_ffff, 0xffff_fffe, &[1, 2, 3, 4, 5]);
        piece.padding = Some(vec![6, 7, 8]);
        Image::new(1, vec![piece; 3]).input()
    });
    walks(all, "the second block's size over the rest", 21, move || {
        let mut image = many(3);
        image.blocks[1].size = Some(0xffff_ffff);
        image.input()
    });
    all.push(Box::new(|| Case::new(Call::Version, "the header's version").expect_at(0, 0)));
}
