//! Longer data, which a copy may go through in larger steps than four; and the same data
//! cut anywhere into two blocks, so that file and image count their fours from different
//! bytes.

use super::{block, image, place};
use crate::calls::{Call, Case};
use crate::make::{File, Section};
use crate::order::ORDERS;

const LOAD: u32 = 0x2000;
const RUN: u32 = 0x0100_0007;

/// No byte is 0, and those that lie close together differ.
fn data(size: usize) -> Vec<u8> {
    (0..size).map(|i| (i % 251 + 1) as u8).collect()
}

/// These bytes in one section, or cut into two; one byte lies between headers and data.
fn file(data: &[u8], cut: Option<usize>) -> Vec<u8> {
    let mut file = File::empty();
    let parts = match cut {
        Some(cut) => vec![(0, cut), (cut, data.len())],
        None => vec![(0, data.len())],
    };
    let before = 22 + 48 * parts.len() + 1;
    for (from, to) in parts {
        let (run, load) = (RUN + from as u32, LOAD + from as u32);
        let (size, raw) = ((to - from) as u32, (before + from) as u32);
        file.sections.push(Section { run, load, size, raw, flags: 0x40, ..Section::default() });
    }
    file.body = [&[0xee], data].concat();
    file.bytes()
}

fn lengths(order: u32, all: &mut Vec<Case>) {
    for size in (10..=80).chain([127, 128, 129, 130, 131, 255, 256, 257, 1000, 1021, 4095, 4097]) {
        let data = data(size);
        let image = image(0, &[block(LOAD, RUN, &data, order)], order);
        let what = format!("{size} bytes, order {order}");
        let file = file(&data, None);
        let convert = Case::new(Call::ConvertWith, &what).file(&file).order(order);
        all.push(convert.lent(image.len() as u64 + (size % 5) as u64).expect_at(0, 0));
        all.push(check(&what, &file, &image, order, 0));
        let load = Case::new(Call::LoadImageWith, &what).image(&image).order(order);
        for before in 0..4 {
            let window = load.clone().number(u64::from(LOAD) - before).lent(before + size as u64 + (3 - before));
            all.push(window.expect_at(0, 0));
        }
        // The last byte stands elsewhere than last; the padding is judged there too.
        for byte in size - 1..(size + 3) / 4 * 4 {
            let mut other = image.clone();
            other[16 + place(byte, order)] ^= 0x20;
            let code = if byte < size { 41 } else { 25 };
            all.push(check(&what, &file, &other, order, code));
        }
    }
}

/// The data in two blocks, or in one if there is nothing before the cut.
fn blocks(data: &[u8], cut: usize, order: u32) -> Vec<Vec<u8>> {
    let second = block(LOAD + cut as u32, RUN + cut as u32, &data[cut..], order);
    match cut {
        0 => vec![second],
        _ => vec![block(LOAD, RUN, &data[..cut], order), second],
    }
}

/// Where a byte stands in their image.
fn stands(byte: usize, cut: usize, order: u32) -> usize {
    match cut {
        0 => 16 + place(byte, order),
        _ if byte < cut => 16 + place(byte, order),
        _ => 16 + (cut + 3) / 4 * 4 + 12 + place(byte - cut, order),
    }
}

fn check(what: &str, file: &[u8], image: &[u8], order: u32, code: u8) -> Case {
    Case::new(Call::CheckWith, what).file(file).image(image).order(order).expect_at(code, 0)
}

/// The image's blocks alone are cut, and come in either order; each byte is changed
/// where it stands.
fn image_cut(size: usize, order: u32, all: &mut Vec<Case>) {
    let data = data(size);
    let file = file(&data, None);
    for cut in 1..size {
        let what = format!("{size} bytes cut at {cut}, order {order}");
        let mut blocks = blocks(&data, cut, order);
        let whole = image(0, &blocks, order);
        blocks.reverse();
        for image in [&whole, &image(0, &blocks, order)] {
            all.push(check(&what, &file, image, order, 0));
            let load = Case::new(Call::LoadImageWith, &what).image(image).order(order);
            all.push(load.number(u64::from(LOAD)).lent(size as u64 + 3).expect_at(0, 0));
        }
        for byte in 0..size {
            let mut other = whole.clone();
            other[stands(byte, cut, order)] ^= 1;
            all.push(check(&what, &file, &other, order, 41));
        }
    }
}

/// The file's sections are cut, and the image's blocks elsewhere or not at all.
fn both_cut(size: usize, order: u32, all: &mut Vec<Case>) {
    let data = data(size);
    for file_cut in 1..size {
        let file = file(&data, Some(file_cut));
        for cut in 0..size {
            let what = format!("{size} bytes cut at {file_cut} and {cut}, order {order}");
            let image = image(0, &blocks(&data, cut, order), order);
            all.push(check(&what, &file, &image, order, 0));
            // Bytes on both sides of where either is cut, and the last.
            for byte in [file_cut - 1, file_cut, cut.saturating_sub(1), cut, size - 1] {
                let mut other = image.clone();
                other[stands(byte, cut, order)] ^= 0x80;
                all.push(check(&what, &file, &other, order, 41));
            }
        }
    }
}

pub fn cases(all: &mut Vec<Case>) {
    for order in ORDERS {
        lengths(order, all);
        for size in [5, 8, 16, 21, 35] {
            image_cut(size, order, all);
        }
        for size in [5, 8, 16, 23] {
            both_cut(size, order, all);
        }
    }
}
