//! Boundaries of small files, and of the number of sections.

use super::{file_of, Maker};
use crate::answer::ADDRESSES;
use crate::calls::{Call, Case, Input};
use crate::listing::TEXT_ROOM;
use crate::make::File;

/// The calls that read a file, all of them answering this code and index.
pub fn file_calls(all: &mut Vec<Maker>, what: &str, code: u8, index: u64, make: impl Fn() -> Input + Clone + 'static) {
    for call in [Call::Convert, Call::List, Call::LoadCoff, Call::Check, Call::Measure] {
        let (make, what) = (make.clone(), what.to_string());
        all.push(Box::new(move || {
            let case = Case::new(call, &what).file_input(make());
            let case = match call {
                Call::Convert => case.lent(8192),
                Call::List => case.lent(TEXT_ROOM),
                // an image without blocks
                Call::Check => case.image(&[0; 8]),
                _ => case,
            };
            match (code, call) {
                (0, Call::Check | Call::LoadCoff) => case,
                _ => case.expect_at(code, index),
            }
        }));
    }
}

pub fn small(all: &mut Vec<Maker>) {
    let mut add = |what: &str, code: u8, index: u64, file: File| {
        file_calls(all, what, code, index, move || file.input());
    };
    let one = |load: u32, run: u32, size: u32| file_of(&[(load, run, size)], None);

    add("22 bytes", 0, 0, File::empty());
    add("50 bytes", 0, 0, file_of(&[], Some(0xffff_ffff)));
    for (cut, code) in [(0, 2), (1, 2), (21, 2)] {
        add("under 22 bytes", code, 0, File { cut: Some(cut), ..File::empty() });
    }
    for cut in [22, 23, 49] {
        add("ends in the optional header", 8, 0, File { cut: Some(cut), ..file_of(&[], Some(1)) });
    }
    for cut in [50, 97, 98, 145] {
        add("ends in a section header", 8, 0, File { cut: Some(cut), ..file_of(&[(0, 0, 1), (1, 1, 1)], Some(1)) });
    }
    add("ends with its section headers", 10, 0, File { cut: Some(70), ..one(0, 0, 1) });

    for entry in [None, Some(7)] {
        let sound = file_of(&[(0x400, 0x500, 9), (0x409, 0, 5)], entry);
        let end = sound.headers_end() as u32;
        let length = sound.bytes().len() as u32;
        let with_raw = |raw: u32| {
            let mut file = sound.clone();
            file.sections[1].raw = raw;
            file
        };
        add("raw data from the end of the headers on", 0, 0, with_raw(end));
        add("raw data one byte before the end of the headers", 10, 1, with_raw(end - 1));
        add("raw data up to the end of the file", 0, 0, with_raw(length - 5));
        add("raw data one byte past the end of the file", 10, 1, with_raw(length - 4));
        add("raw data at the end of the file", 10, 1, with_raw(length));
        add("raw offset FFFFFFFFh", 10, 1, with_raw(0xffff_ffff));
        add("raw offset + size 2^32", 10, 1, with_raw(0xffff_fffb));
        add("raw offset + size over 2^32", 10, 1, with_raw(0xffff_fffb + 3));
    }
    for size in [0xffff_ffff, 0xffff_fffc, 0x8000_0000, 0x7fff_ffff] {
        let mut file = one(0, 0, 4);
        file.sections[0].size = size;
        add("size far over the file", 10, 0, file.clone());
        file.sections[0].flags = 0x22;
        add("size far over the file, not kept", 0, 0, file);
    }
    for size in [1u32, 2, 3, 4, 5, 8] {
        let top = (ADDRESSES - u64::from(size)) as u32;
        add("load ends at 2^32", 0, 0, one(top, 0, size));
        add("run ends at 2^32", 0, 0, one(0, top, size));
        add("both end at 2^32", 0, 0, one(top, top, size));
        if size > 1 {
            add("load one byte over 2^32", 11, 0, one(top + 1, 0, size));
            add("run one byte over 2^32", 12, 0, one(0, top + 1, size));
            add("both one byte over 2^32", 11, 0, one(top + 1, top + 1, size));
            add("load FFFFFFFFh", 11, 0, one(0xffff_ffff, 0, size));
            add("run FFFFFFFFh", 12, 0, one(0, 0xffff_ffff, size));
        }
    }
    let two = |first: u32, second: u32, size: u32| file_of(&[(first, 0, 8), (second, 0, size)], Some(3));
    for size in 1..10 {
        add("touching from below", 0, 0, two(0x100, 0x100 - size, size));
        add("touching from above", 0, 0, two(0x100, 0x108, size));
        add("meeting from below", 13, 1, two(0x100, 0x101 - size, size));
        add("meeting from above", 13, 1, two(0x100, 0x107, size));
    }
    add("meeting at the top", 13, 1, two(0xffff_fff8, 0xffff_ffff, 1));
    add("touching at the top", 0, 0, two(0xffff_fff7, 0xffff_ffff, 1));
    // The second and the third meet the first; the fourth meets the second.
    add("several meet", 13, 1, file_of(&[(8, 0, 8), (4, 0, 8), (12, 0, 8), (0, 0, 5)], None));
    add("the last meets the first", 13, 3, file_of(&[(8, 0, 8), (40, 0, 8), (60, 0, 8), (15, 0, 1)], None));
    // The third meets the second; the fourth meets the first, which is earlier.
    add("the earlier of two later ones", 13, 2, file_of(&[(8, 0, 8), (40, 0, 8), (44, 0, 8), (15, 0, 1)], None));
    let mut gap = file_of(&[(8, 0, 8), (8, 0, 8), (15, 0, 1)], None);
    gap.sections[1].flags = 0x80;
    add("the kept ones meet around one that is not", 13, 2, gap);
}

pub fn counts(all: &mut Vec<Maker>) {
    for sections in [255usize, 256, 257, 258, 512] {
        let code = if sections > 256 { 7 } else { 0 };
        let make = move || {
            let list: Vec<(u32, u32, u32)> = (0..sections as u32).map(|i| (i * 4, i * 4, 1 + i % 4)).collect();
            file_of(&list, Some(5))
        };
        file_calls(all, &format!("{sections} sections"), code, 0, move || make().input());
        let short = move || File { cut: Some(50 + 48 * sections - 1), ..make() };
        let code = if sections > 256 { 7 } else { 8 };
        file_calls(all, &format!("{sections} sections, one byte short"), code, 0, move || short().input());
    }
    let last_meets = || {
        let mut list: Vec<(u32, u32, u32)> = (0..256).map(|i| (i * 4, i * 4, 1 + i % 4)).collect();
        list[255].0 = 0;
        file_of(&list, None).input()
    };
    file_calls(all, "the last of 256 meets the first", 13, 255, last_meets);
}
