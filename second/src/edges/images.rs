//! Boundaries of small images, and of the number of blocks.

use super::Maker;
use crate::answer::ADDRESSES;
use crate::calls::{Call, Case};
use crate::gen_file::sound_of;
use crate::gen_image;
use crate::make::{File, Image, Piece};
use crate::rng::Rng;

/// The calls that read an image, all of them answering this code and index.
fn image_calls(all: &mut Vec<Maker>, what: &str, code: u8, index: u64, make: impl Fn() -> Image + Clone + 'static) {
    for call in [Call::Read, Call::Block, Call::LoadImage, Call::Check] {
        let (make, what) = (make.clone(), what.to_string());
        all.push(Box::new(move || {
            let image = make();
            let case = Case::new(call, &what).file(&File::empty().bytes()).image_input(image.input());
            if code != 0 {
                return case.expect_at(code, index);
            }
            let (low, high) = gen_image::hull(&image.blocks);
            match call {
                Call::Block => case.number(image.blocks.len() as u64 - 1).expect_at(0, 0),
                Call::LoadImage => case.number(low).lent(high - low).expect_at(0, 0),
                Call::Check => case,
                _ => case.expect_at(0, 0),
            }
        }));
    }
}

pub fn counts(all: &mut Vec<Maker>) {
    let many = |blocks: usize| gen_image::many(&mut Rng::new(11, blocks as u64), blocks);
    image_calls(all, "4095 blocks", 0, 0, move || many(4095));
    image_calls(all, "4096 blocks", 0, 0, move || many(4096));
    image_calls(all, "4097 blocks", 22, 4096, move || many(4097));
    image_calls(all, "5000 blocks", 22, 4096, move || many(5000));
    for extra in 0..4 {
        image_calls(all, "no end flag after 4096 blocks", 21, 4096, move || {
            let mut image = many(4096);
            image.end.truncate(extra);
            image
        });
    }
    image_calls(all, "4097th size field only", 22, 4096, move || {
        let mut image = many(4096);
        image.end = vec![1, 0, 0, 0];
        image
    });
    image_calls(all, "a byte after 4096 blocks", 26, 4096, move || {
        let mut image = many(4096);
        image.end.push(0);
        image
    });
    image_calls(all, "the last of 4096 meets the first", 27, 4095, move || {
        let mut image = many(4096);
        image.blocks[4095].load = image.blocks[0].load;
        image
    });
    image_calls(all, "the last of 4096 has bad padding", 25, 4095, move || {
        let mut image = many(4096);
        image.blocks[4095].data = vec![1];
        image.blocks[4095].padding = Some(vec![0, 0, 1]);
        image
    });
    all.push(Box::new(move || {
        Case::new(Call::Block, "block 4096 of 4096").image_input(many(4096).input()).number(4096).expect_at(30, 0)
    }));
    for missing in [false, true] {
        all.push(Box::new(move || {
            let mut rng = Rng::new(13, 0);
            let made = sound_of(&mut rng, &[Some(4000), Some(96)]);
            let cut = |p: Piece| {
                let one = move |(i, b): (usize, &u8)| Piece::new(p.load + i as u32, p.run + i as u32, &[*b]);
                p.data.iter().enumerate().map(one).collect::<Vec<_>>()
            };
            let mut blocks: Vec<Piece> = made.pieces().into_iter().flat_map(cut).collect();
            rng.shuffle(&mut blocks);
            if missing {
                blocks.pop();
            }
            Case::new(Call::Check, "4096 blocks of one byte")
                .file_input(made.file.input())
                .image_input(Image::new(made.entry(), blocks).input())
                .expect_at(if missing { 41 } else { 0 }, 0)
        }));
    }
}

pub fn small(all: &mut Vec<Maker>) {
    let mut add = |what: &str, code: u8, index: u64, image: Image| {
        image_calls(all, what, code, index, move || image.clone());
    };
    let one = |load: u32, run: u32, size: usize| Image::new(9, vec![Piece::new(load, run, &vec![0x5a; size])]);
    for size in [1usize, 2, 3, 4, 5, 8] {
        let top = (ADDRESSES - size as u64) as u32;
        add("load ends at 2^32", 0, 0, one(top, 0, size));
        add("run ends at 2^32", 0, 0, one(0, top, size));
        if size > 1 {
            add("load one byte over 2^32", 23, 0, one(top + 1, 0, size));
            add("run one byte over 2^32", 24, 0, one(0, top + 1, size));
            add("both one byte over 2^32", 23, 0, one(top + 1, top + 1, size));
        }
    }
    let two = |first: u32, second: u32, size: usize| {
        let blocks = vec![Piece::new(first, 0, &[1; 8]), Piece::new(second, 0, &vec![2; size])];
        Image::new(9, blocks)
    };
    for size in 1..10usize {
        add("touching from below", 0, 0, two(0x100, 0x100 - size as u32, size));
        add("touching from above", 0, 0, two(0x100, 0x108, size));
        add("meeting from below", 27, 1, two(0x100, 0x101 - size as u32, size));
        add("meeting from above", 27, 1, two(0x100, 0x107, size));
    }
    let place = |load: u32, size: usize| Piece::new(load, 0, &vec![3; size]);
    let four = vec![place(8, 8), place(40, 8), place(44, 8), place(15, 1)];
    add("the earlier of two later ones", 27, 2, Image::new(0, four));
    for field in [0xffff_ffff, 0xffff_fffe, 0xffff_fffd, 0xffff_fffc, 0x8000_0000, 9] {
        let mut image = two(0, 8, 8);
        image.blocks[1].size = Some(field);
        image.end = Vec::new();
        add("size over the rest of the image", 21, 1, image);
    }
    for position in 0..3 {
        let mut image = one(0, 0, 1);
        image.blocks[0].padding = Some((0..3).map(|i| u8::from(i == position)).collect());
        add("padding", 25, 0, image);
    }
    for more in [vec![0], vec![0; 4], vec![1], vec![1, 0, 0, 0]] {
        let mut image = two(0, 8, 8);
        image.end.extend(more.clone());
        add("bytes after the end flag", 26, 2, image);
        let mut image = Image::new(0, Vec::new());
        image.end.extend(more);
        add("bytes after an end flag without blocks", 26, 0, image);
    }
}
