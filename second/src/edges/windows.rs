//! Boundaries of windows.

use super::{file_of, Maker};
use crate::answer::ADDRESSES;
use crate::calls::{Call, Case};
use crate::make::{Image, Piece};

pub fn small(all: &mut Vec<Maker>) {
    let empty = Image::new(1, Vec::new());
    let block = Image::new(1, vec![Piece::new(0x1000, 0, &[1, 2, 3, 4, 5])]);
    let top = Image::new(1, vec![Piece::new(0xffff_fffb, 0, &[1, 2, 3, 4, 5])]);
    let far = Image::new(1, vec![Piece::new(0x1000, 0, &[1, 2]), Piece::new(0x1005, 0, &[3]), Piece::new(0x0fff, 0, &[4])]);
    let mut add = |what: &str, code: u8, index: u64, image: &Image, base: u64, length: u64| {
        let image = image.clone();
        let as_file = {
            let list: Vec<(u32, u32, u32)> = image.blocks.iter().map(|b| (b.load, b.run, b.data.len() as u32)).collect();
            file_of(&list, Some(1))
        };
        let name = what.to_string();
        all.push(Box::new(move || {
            let case = Case::new(Call::LoadImage, &name).image_input(image.input());
            case.number(base).lent(length).expect_at(code, index)
        }));
        let name = what.to_string();
        all.push(Box::new(move || {
            let case = Case::new(Call::LoadCoff, &name).file_input(as_file.input());
            case.number(base).lent(length).expect_at(code, index)
        }));
    };
    add("nothing into nothing", 0, 0, &empty, 0, 0);
    add("nothing into something", 0, 0, &empty, 5, 20);
    add("base 2^32, length 0", 0, 0, &empty, ADDRESSES, 0);
    add("base 2^32 + 1, length 0", 28, 0, &empty, ADDRESSES + 1, 0);
    add("base 2^32, length 1", 28, 0, &empty, ADDRESSES, 1);
    add("largest base", 28, 0, &empty, u64::MAX, 0);
    add("largest base, length 1", 28, 0, &empty, u64::MAX, 1);
    add("base + length 2^64 + 5", 28, 0, &block, u64::MAX - 4, 10);
    add("base 2^33 + 1000h", 28, 0, &block, (1 << 33) + 0x1000, 5);
    add("window up to 2^32", 0, 0, &top, ADDRESSES - 5, 5);
    add("window up to 2^32, larger", 0, 0, &top, ADDRESSES - 50, 50);
    add("window one over 2^32", 28, 0, &top, ADDRESSES - 5, 6);
    add("window one over 2^32, base one up", 28, 0, &top, ADDRESSES - 4, 5);
    add("window one short of 2^32", 29, 0, &top, ADDRESSES - 5, 4);
    add("window base one up", 29, 0, &top, ADDRESSES - 4, 4);
    add("base 2^32, length 0, a block", 29, 0, &top, ADDRESSES, 0);
    add("length 0, a block", 29, 0, &block, 0x1000, 0);
    add("just enough", 0, 0, &block, 0x1000, 5);
    add("one short at the end", 29, 0, &block, 0x1000, 4);
    add("one short at the start", 29, 0, &block, 0x1001, 5);
    add("block wholly before", 29, 0, &block, 0x1005, 50);
    add("block wholly after", 29, 0, &block, 0xf00, 0x100);
    add("second block outside", 29, 1, &far, 0xfff, 6);
    add("second and third outside", 29, 1, &far, 0x1000, 5);
    add("third block outside", 29, 2, &far, 0x1000, 6);
    add("all three inside", 0, 0, &far, 0xfff, 7);
}
