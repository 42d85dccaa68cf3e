//! Names in the string table: each offset, each size, and the file's end and the
//! table's place everywhere around it.

use super::{at_offset, calls, calls_expect, two_sections};
use crate::calls::Case;
use crate::fields::{push_u32, put_u32};
use crate::make::File;

/// What stands behind the size field; the last name has no end.
const NAMES: &[u8] = b"first\0second one\0\0last";
pub const TABLE: u32 = 4 + NAMES.len() as u32;
const SYMBOLS: u32 = 2;
const ROWS: [&[u8]; 4] = [b"first", b"*", b"second*\0", b"?ast\0last"];

/// A file with this offset for a name, and a table that says this size.
pub fn with_table(offset: u32, size: u32) -> File {
    let mut file = two_sections(at_offset(offset));
    file.symbols_in_body = Some(file.body.len());
    file.symbols = SYMBOLS;
    file.body.extend_from_slice(&[b'S'; 18 * SYMBOLS as usize]);
    push_u32(&mut file.body, size);
    file.body.extend_from_slice(NAMES);
    file
}

/// Where the table begins in such a file.
pub fn table_at() -> u32 {
    with_table(4, TABLE).bytes().len() as u32 - TABLE
}

/// The code, from the parts that the file was put together from: `held` bytes of
/// the table are in the file.
fn code(offset: u32, size: u32, held: u32) -> u8 {
    let whole_size = held >= 4;
    let end = size.min(held).max(4) as usize - 4;
    let names = &NAMES[..end.min(NAMES.len())];
    let readable = offset >= 4 && names.iter().skip(offset as usize - 4).any(|&b| b == 0);
    if offset == 0 || whole_size && readable { 0 } else { 16 }
}

/// Offset 0 is no offset: eight zero bytes are the empty name.
fn offsets(all: &mut Vec<Case>) {
    let far = [TABLE + 100, 0x7fff_ffff, 0x8000_0000, 0xffff_fffb, 0xffff_fffc, 0xffff_ffff];
    for size in [TABLE, TABLE - 4, TABLE + 1, TABLE + 6, 0xffff_ffff] {
        for offset in (0..=TABLE + 4).chain(far) {
            let file = with_table(offset, size).bytes();
            let expected = code(offset, size, TABLE);
            for row in ROWS {
                calls_expect(&format!("offset {offset} of {size}"), &file, row, expected, 0, all);
            }
            calls_expect("no pattern: the offset is not followed", &file, b"", 0, 0, all);
        }
    }
}

fn sizes(all: &mut Vec<Case>) {
    let odd = [256, 65_536, 0x7fff_ffff, 0x8000_0000, 0xffff_fffc, 0xffff_ffff];
    for size in (0..=TABLE + 2).chain(odd) {
        for offset in [4, 5, 9, 10, 19, 20, 21, 22, 23] {
            let file = with_table(offset, size).bytes();
            calls_expect(&format!("table of {size}, offset {offset}"), &file, b"first", code(offset, size, TABLE), 0, all);
        }
    }
}

/// The file ends at each byte from the symbol table on.
fn cut(all: &mut Vec<Case>) {
    for size in [TABLE, 0xffff_ffff, 10] {
        for offset in [3, 4, 9, 10, 20, 21] {
            let file = with_table(offset, size).bytes();
            for end in table_at() - 18 * SYMBOLS..=table_at() + TABLE {
                let held = end.saturating_sub(table_at());
                let what = format!("offset {offset} of {size}, the file ends at {end}");
                calls_expect(&what, &file[..end as usize], b"first\0*one", code(offset, size, held), 0, all);
            }
        }
    }
}

/// Symbol offsets and counts whose sum is this place, or would be if it wrapped.
fn places(all: &mut Vec<Case>) {
    let at = table_at();
    let right = |n: u32| (at - 18 * n, n, 0);
    // 18 times 0E38E38Fh is 2^32 + 14, and times 80000000h it is 9 times 2^32.
    let wrapping = [(at - 14, 0x0e38_e38f, 16), (at, 0x8000_0000, 16), (at.wrapping_sub(18), 0x8000_0001, 16)];
    let far = [(0xffff_ffff, 0, 16), (0, 0xffff_ffff, 16), (0xffff_ffff, 0xffff_ffff, 16), (at, 0x0e38_e38e, 16)];
    // So many symbols that the sum alone is over 2^32.
    let over = at / 18 + 1;
    let near = [(at.wrapping_sub(18 * over), over, 16), (at + TABLE, 0, 16), (at + TABLE - 4, 0, 16)];
    let mut all_places = vec![right(0), right(1), right(2), right(3)];
    all_places.extend(wrapping);
    all_places.extend(far);
    all_places.extend(near);
    for (symbols_at, symbols, expected) in all_places {
        let mut file = with_table(4, TABLE);
        file.symbols_in_body = None;
        (file.symbols_at, file.symbols) = (symbols_at, symbols);
        let what = format!("symbols at {symbols_at:x}, {symbols:x} of them");
        calls_expect(&what, &file.bytes(), b"first", expected, 0, all);
    }
    // Around the place and around the end of the file, whatever is read there.
    let length = at + TABLE;
    for symbols_at in (at - 4..=at + 4).chain(length - 6..=length + 1).chain(0..=30) {
        for offset in [4, 5, 8, 12] {
            let mut file = with_table(offset, TABLE);
            file.symbols_in_body = None;
            (file.symbols_at, file.symbols) = (symbols_at, 0);
            calls(&format!("table at {symbols_at}, offset {offset}"), &file.bytes(), b"first\0?ond*", all);
        }
    }
}

/// Symbol offset 0 and no symbols: the table is the file from its first byte on,
/// and its size is version and section count.
fn whole_file(all: &mut Vec<Case>) {
    let mut file = two_sections(at_offset(4));
    file.time = u32::from_le_bytes(*b"nam\0");
    for row in [b"nam".as_slice(), b"na", b"name", b"*"] {
        calls_expect("the file is the table", &file.bytes(), row, 0, 0, all);
    }
    let from = file.bytes().len() as u32;
    let size = 0x2_00c2;
    for (zero_at, expected) in [(size - 2, 0), (size - 1, 0), (size, 16), (size + 1, 16)] {
        let mut file = two_sections(at_offset(from));
        file.body.resize(file.body.len() + size as usize + 10, b'n');
        let mut bytes = file.bytes();
        bytes[zero_at as usize] = 0;
        let what = format!("the file is the table, a zero byte at {zero_at:x}");
        calls_expect(&what, &bytes[..size as usize + 5], b"n*n", expected, 0, all);
    }
}

/// Rule 16 is asked of sections that flags, size and raw data offset keep, and of no
/// others.
fn kept_or_not(all: &mut Vec<Case>) {
    for offset in [1, 3, TABLE - 1, TABLE, 0xffff_ffff] {
        for flags in [0x20, 0x40, 0x8000, 0x60, 0x520, 0x8060, 0xffff_ffec, 0, 0x4f00, 0xffff_7f00] {
            for size in [5, 0] {
                let mut file = with_table(offset, TABLE);
                file.sections[0].flags = flags;
                file.sections[0].size = size;
                let expected = if size == 0 { 0 } else { 16 };
                calls_expect(&format!("flags {flags:x}, size {size}"), &file.bytes(), b"*", expected, 0, all);
            }
        }
        for flags in [0x80, 0x04, 0x01, 0x21, 0x22, 0x42, 0x30, 0x8010, 0x08, 0x73, 0xffff_ffff, !0x8060] {
            let mut file = with_table(offset, TABLE);
            file.sections[0].flags = flags;
            for row in [b"*".as_slice(), b"first", b".rest"] {
                calls_expect(&format!("flags {flags:x}"), &file.bytes(), row, 0, 0, all);
            }
        }
        // In the last section of the two, and in both.
        let mut file = with_table(4, TABLE);
        file.sections[1].name = at_offset(offset);
        for row in [b"*".as_slice(), b"first", b"x"] {
            calls_expect("the second name", &file.bytes(), row, 16, 0, all);
        }
        file.sections[0].name = at_offset(offset);
        calls_expect("both names", &file.bytes(), b"x", 16, 0, all);
    }
}

/// The size field of a table that is nothing but this field.
fn bare(all: &mut Vec<Case>) {
    for size in 0..=8 {
        for more in 0..=4 {
            let mut file = two_sections(at_offset(4));
            file.symbols_in_body = Some(file.body.len());
            file.body.extend_from_slice(&[0; 8][..4 + more]);
            let at = file.body.len() - 4 - more;
            put_u32(&mut file.body, at, size);
            let expected = if size > 4 && more > 0 { 0 } else { 16 };
            calls_expect(&format!("table of {size}, {more} bytes behind"), &file.bytes(), b"x", expected, 0, all);
        }
    }
}

pub fn cases(all: &mut Vec<Case>) {
    offsets(all);
    sizes(all);
    cut(all);
    places(all);
    whole_file(all);
    kept_or_not(all);
    bare(all);
}
