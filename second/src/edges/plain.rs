//! Boundaries of plain sections: of what makes them so, and of the rules that are
//! asked of them once they are kept.

use super::files::file_calls;
use super::{file_of, Maker};
use crate::answer::ADDRESSES;
use crate::calls::{Call, Case};
use crate::make::File;

/// No flag at all, and flags that make no difference.
const PLAIN: [u32; 4] = [0, 0x100, 0x4f00, 0xffff_7f00];

/// Such a file whose sections have these flags.
fn flagged(sections: &[(u32, u32, u32)], flags: &[u32]) -> File {
    let mut file = file_of(sections, Some(9));
    for (section, flags) in file.sections.iter_mut().zip(flags) {
        section.flags = *flags;
    }
    file
}

/// The raw data offset of the second of two sections, the first of which is TEXT.
fn offsets(all: &mut Vec<Maker>, flags: u32) {
    let sound = flagged(&[(0x400, 0x500, 9), (0x409, 0, 5)], &[0x20, flags]);
    let end = sound.headers_end() as u32;
    let length = sound.bytes().len() as u32;
    let mut add = |what: &str, size: u32, raw: u32, code: u8| {
        let mut file = sound.clone();
        (file.sections[1].size, file.sections[1].raw) = (size, raw);
        let what = format!("plain by {flags:x}: {what}");
        file_calls(all, &what, code, u64::from(code != 0), move || file.input());
    };
    add("raw offset 0", 5, 0, 0);
    add("raw offset 1", 5, 1, 10);
    add("raw data one byte before the end of the headers", 5, end - 1, 10);
    add("raw data from the end of the headers on", 5, end, 0);
    add("raw data up to the end of the file", 5, length - 5, 0);
    add("raw data one byte past the end of the file", 5, length - 4, 10);
    add("raw offset + size 2^32", 5, 0xffff_fffb, 10);
    // Offsets of which a part is 0.
    for raw in [0x100, 0x1_0000, 0x100_0000, 0x8000_0000] {
        add("raw offset far off", 5, raw, 10);
    }
    for raw in [0, 1, end - 1, end, 0xffff_ffff] {
        add("size 0", 0, raw, 0);
    }
    // Sizes of which a part is 0, and a sum that leaves 32 bits.
    for size in [0x100, 0x1_0000, 0x100_0000, 0x8000_0000, 0xffff_ffff] {
        add("size over the file", size, end, 10);
        add("size over the file, raw offset 0", size, 0, 0);
    }
}

fn addresses(all: &mut Vec<Maker>, flags: u32) {
    let mut add = |what: &str, code: u8, load: u32, run: u32, size: u32, raw: Option<u32>| {
        let mut file = flagged(&[(load, run, size)], &[flags]);
        file.sections[0].raw = raw.unwrap_or(file.sections[0].raw);
        file_calls(all, &format!("plain by {flags:x}: {what}"), code, 0, move || file.input());
    };
    for size in [2, 3, 8] {
        let top = (ADDRESSES - u64::from(size)) as u32;
        add("both end at 2^32", 0, top, top, size, None);
        add("load one byte over 2^32", 11, top + 1, 0, size, None);
        add("run one byte over 2^32", 12, 0, top + 1, size, None);
        add("both one byte over 2^32", 11, top + 1, top + 1, size, None);
        add("both one byte over 2^32, raw offset 0", 0, top + 1, top + 1, size, Some(0));
    }
}

/// Plain and typed ones meet, each as the earlier and the later; around one that has
/// no raw data they do as if it were not there.
fn meeting(all: &mut Vec<Maker>) {
    for (first, second) in [(0, 0), (0, 0x20), (0x40, 0), (0x4000, 0x8000), (0x8000, 0x100)] {
        let mut add = |what: &str, code: u8, load: u32| {
            let file = flagged(&[(0x100, 0, 8), (load, 0, 4)], &[first, second]);
            file_calls(all, &format!("{what}: {first:x} and {second:x}"), code, u64::from(code != 0), move || file.input());
        };
        add("touching from below", 0, 0xfc);
        add("meeting from below", 13, 0xfd);
        add("meeting from above", 13, 0x107);
        add("touching from above", 0, 0x108);
        let mut gap = flagged(&[(8, 0, 8), (8, 0, 8), (15, 0, 1)], &[first, 0, second]);
        gap.sections[1].raw = 0;
        file_calls(all, "meeting around one without raw data", 13, 2, move || gap.input());
    }
}

/// As many as there can be: all plain, and every other one without raw data.
fn counts(all: &mut Vec<Maker>) {
    let list: Vec<(u32, u32, u32)> = (0..256).map(|i| (i * 4, i * 4, 1 + i % 4)).collect();
    let whole = flagged(&list, &[0; 256]);
    let mut half = whole.clone();
    for section in half.sections.iter_mut().step_by(2) {
        section.raw = 0;
    }
    file_calls(all, "256 plain sections", 0, 0, move || whole.input());
    let other = half.clone();
    file_calls(all, "256 plain sections, half of them without raw data", 0, 0, move || other.input());
    half.sections[253].raw = 1;
    file_calls(all, "one of them with its raw data in the headers", 10, 253, move || half.input());
}

/// A TEXT section and a plain one behind it, in windows that hold one or both; without
/// raw data the plain one is not asked for its place.
fn windows(all: &mut Vec<Maker>) {
    let mut add = |what: &'static str, code: u8, index: u64, raw: bool, base: u64, length: u64| {
        all.push(Box::new(move || {
            let mut file = flagged(&[(0x1000, 0, 5), (0x1005, 0, 3)], &[0x20, 0]);
            if !raw {
                file.sections[1].raw = 0;
            }
            let case = Case::new(Call::LoadCoff, what).file_input(file.input());
            case.number(base).lent(length).expect_at(code, index)
        }));
    };
    add("both inside", 0, 0, true, 0x1000, 8);
    add("the plain one ends after the window", 29, 1, true, 0x1000, 7);
    add("the plain one begins after the window", 29, 1, true, 0x1000, 5);
    add("the plain one has no raw data", 0, 0, false, 0x1000, 5);
    add("the other one is outside", 29, 0, true, 0x1005, 3);
    let mut alone = |what: &'static str, code: u8, base: u64, length: u64| {
        all.push(Box::new(move || {
            let file = flagged(&[(0x1000, 0, 5)], &[0]);
            Case::new(Call::LoadCoff, what).file_input(file.input()).number(base).lent(length).expect_at(code, 0)
        }));
    };
    alone("a plain one, just enough", 0, 0x1000, 5);
    alone("a plain one, one short at the end", 29, 0x1000, 4);
    alone("a plain one, one short at the start", 29, 0x1001, 5);
}

pub fn sections(all: &mut Vec<Maker>) {
    for flags in PLAIN {
        offsets(all, flags);
        addresses(all, flags);
    }
    meeting(all);
    counts(all);
    windows(all);
}
