//! Sections that are left out: nothing further is asked of them, and those that
//! remain keep their numbers.

use super::calls_expect;
use crate::calls::{Call, Case};
use crate::gen_file::sharing;
use crate::make::{File, Section};
use crate::rng::Rng;

/// Sections with these flags, and with these names, load addresses and sizes, whose
/// bytes lie one after the other.
fn file_of(flags: u32, sections: &[(&[u8; 8], u32, u32)]) -> File {
    let mut file = File::empty();
    let mut raw = 22 + 48 * sections.len() as u32;
    for &(name, load, size) in sections {
        file.sections.push(Section { name: *name, run: load, load, size, raw, flags, ..Section::default() });
        raw += size;
        file.body.extend((0..size).map(|i| (raw + i * 7) as u8));
    }
    file
}

fn three(flags: u32) -> File {
    file_of(flags, &[(b"one\0\0\0\0\0", 0x400, 2), (b"two\0\0\0\0\0", 0x402, 3), (b"three\0\0\0", 0x405, 3)])
}

/// A fault of one section: what it is, the code that the calls answer, how it is made.
type Fault = (&'static str, u8, fn(&mut Section));

/// At raw data offset 0 a plain section is not kept; another one is, and refused.
fn faults(flags: u32) -> Vec<Fault> {
    vec![
        ("raw data offset 0", if flags == 0 { 0 } else { 10 }, |s| s.raw = 0),
        ("raw data in the headers", 10, |s| s.raw = 1),
        ("raw data past the file", 10, |s| s.raw = 0xffff_ffff),
        ("size far over the file", 10, |s| s.size = 0xffff_ffff),
        ("load over 2^32", 11, |s| s.load = 0xffff_ffff),
        ("run over 2^32", 12, |s| s.run = 0xffff_ffff),
    ]
}

fn nothing_further(flags: u32, all: &mut Vec<Case>) {
    for at in 0..3 {
        let name: [&[u8]; 3] = [b"one", b"two", b"three"];
        for (what, code, damage) in faults(flags) {
            let index = if code == 0 { 0 } else { at as u64 };
            let mut file = three(flags);
            damage(&mut file.sections[at]);
            let file = file.bytes();
            calls_expect(what, &file, b"", code, index, all);
            calls_expect(what, &file, b"x", code, index, all);
            calls_expect(&format!("{what}, left out"), &file, name[at], 0, 0, all);
            calls_expect(&format!("{what}, left out"), &file, b"*", 0, 0, all);
            let others: [&[u8]; 3] = [b"t*", b"one\0th*", b"???"];
            calls_expect(&format!("{what}, others left out"), &file, others[at], code, index, all);
        }
    }
}

/// Each of two that meet is left out; and of three in a row the first or second.
fn meeting(flags: u32, all: &mut Vec<Case>) {
    let two = file_of(flags, &[(b"one\0\0\0\0\0", 0x400, 4), (b"two\0\0\0\0\0", 0x403, 4)]).bytes();
    calls_expect("two meet", &two, b"x", 13, 1, all);
    for row in [b"one".as_slice(), b"two", b"t*", b"one\0two", b"???"] {
        calls_expect("one of two that meet left out", &two, row, 0, 0, all);
    }
    let mut row = three(flags);
    for (section, load) in row.sections.iter_mut().zip([0x400, 0x401, 0x403]) {
        section.load = load;
        section.run = 0;
    }
    let row = row.bytes();
    calls_expect("each meets the next", &row, b"x", 13, 1, all);
    calls_expect("the first left out: the number stays", &row, b"one", 13, 2, all);
    calls_expect("the second left out", &row, b"two", 0, 0, all);
    calls_expect("the third left out", &row, b"th*", 13, 1, all);
}

/// Sections outside the window that are left out do not refuse a load.
fn outside(flags: u32, all: &mut Vec<Case>) {
    let file = three(flags).bytes();
    let mut load = |row: &[u8], base: u64, length: u64, code: u8, index: u64| {
        let case = Case::new(Call::LoadCoffWith, "a window for a part").file(&file).row(row);
        all.push(case.number(base).lent(length).expect_at(code, index));
    };
    load(b"x", 0x402, 6, 29, 0);
    load(b"one", 0x402, 6, 0, 0);
    load(b"one", 0x402, 5, 29, 2);
    load(b"one\0three", 0x402, 3, 0, 0);
    load(b"t*", 0x400, 2, 0, 0);
    load(b"t*", 0x400, 1, 29, 0);
    load(b"*", 0x500, 0, 0, 0);
    load(b"*", 1 << 32, 0, 0, 0);
    load(b"*", 1 << 32, 1, 28, 0);
}

/// With some of its sections left out the image is not too long any more.
fn too_long(all: &mut Vec<Case>) {
    let mut made = sharing(&mut Rng::new(5, 6), 256, 65_523);
    made.file.sections[17].name = *b"large\0\0\0";
    let file = made.file.bytes();
    let measure = |row: &[u8]| Case::new(Call::MeasureWith, "an image of about the limit").file(&file).row(row);
    all.push(measure(b"").expect_at(14, 0));
    all.push(measure(b"larg").expect_at(14, 0));
    all.push(measure(b"larg?").expect_at(0, 0));
    all.push(measure(b"*").expect_at(0, 0));
    let convert = |row: &[u8]| Case::new(Call::ConvertWith, "an image of about the limit").file(&file).row(row);
    all.push(convert(b"x").lent(8).expect_at(14, 0));
    all.push(convert(b"large").lent(8).expect_at(15, 0));
    all.push(convert(b"*").lent(8).expect_at(0, 0));
    all.push(convert(b"*").lent(7).expect_at(15, 0));
}

/// An image that was made without the patterns is not the same, if they take any
/// section; and the other way round.
fn other_patterns(flags: u32, all: &mut Vec<Case>) {
    let file = three(flags).bytes();
    let rows: [&[u8]; 6] = [b"", b"x", b"one", b"t*", b"two", b"*"];
    let kept = [7, 7, 6, 1, 5, 0];
    for (i, made_with) in rows.iter().enumerate() {
        let mut image = vec![0; 200];
        let (length, _) = crate::image::convert(&file, &mut image, made_with).expect("a sound file");
        image.truncate(length as usize);
        for (j, row) in rows.iter().enumerate() {
            let code = if kept[i] == kept[j] { 0 } else { 41 };
            let case = Case::new(Call::CheckWith, "patterns of another conversion").file(&file).image(&image);
            all.push(case.row(row).expect_at(code, 0));
        }
    }
}

pub fn cases(all: &mut Vec<Case>) {
    for flags in [0x20, 0] {
        nothing_further(flags, all);
        meeting(flags, all);
        outside(flags, all);
        other_patterns(flags, all);
    }
    too_long(all);
}
