//! The bench's file `A` under patterns, with outcomes that were written down by hand.

use crate::answer::{pack_convert, pack_load};
use crate::bench::{a, aa, refused, Entry, P1, RAW};
use crate::calls::{Call, Case};
use crate::fields::put_u32;

/// `A` with this name field; bytes 8 to 11 of that header are its run address.
fn named(name: &[u8; 8]) -> Vec<u8> {
    let mut file = a();
    file[22..30].copy_from_slice(name);
    file
}

/// `A` with its name at an offset of a string table of this size, directly behind
/// the raw byte at 75; there are no symbols.
fn in_table(offset: u32, size: u32) -> Vec<u8> {
    let mut file = a();
    put_u32(&mut file, 8, 75);
    put_u32(&mut file, 26, offset);
    file.extend_from_slice(&size.to_le_bytes());
    file.extend_from_slice(b".test_long\0");
    file
}

/// What conversion answers, and whether the section is kept.
fn conversions() -> Vec<(&'static str, Vec<u8>, &'static [u8], u64)> {
    let (kept, left_out) = (pack_convert(28, 1), pack_convert(8, 0));
    let stack = named(b".stack\0\0");
    let eight = named(b".testing");
    let mut cut = in_table(4, 15);
    cut.truncate(78);
    vec![
        ("no pattern", stack.clone(), b"", kept),
        ("the name itself", stack.clone(), b".stack", left_out),
        ("the name itself, ended", stack.clone(), b".stack\0", left_out),
        ("the second of two", stack.clone(), b".test*\0.stack", left_out),
        ("only the start of the name", stack.clone(), b".stac", kept),
        ("more than the name", stack.clone(), b".stack?", kept),
        ("a star that takes nothing", stack.clone(), b".stack*", left_out),
        ("a star that takes one and stays", stack.clone(), b".*k", left_out),
        ("case counts", stack.clone(), b".STACK", kept),
        ("eight bytes without a zero byte", eight.clone(), b".testing", left_out),
        ("eight question marks", eight.clone(), b"????????", left_out),
        ("nine question marks", eight, b"?????????", kept),
        ("the empty name", a(), b"*", left_out),
        ("the empty name is no character", a(), b"?", kept),
        ("a long name", in_table(4, 15), b".test_long", left_out),
        ("a long name from its sixth byte on", in_table(9, 15), b"_long", left_out),
        ("a long name, not taken", in_table(4, 15), b".test", kept),
        ("the empty name at the end of the table", in_table(14, 15), b"**", left_out),
        ("offset 3", in_table(3, 15), b"*", refused(16, 0)),
        ("offset 15 of 15", in_table(15, 15), b"*", refused(16, 0)),
        ("the size leaves the zero byte out", in_table(4, 14), b"*", refused(16, 0)),
        ("the size says more than there is", in_table(4, 1000), b"*", left_out),
        ("the file ends in the size field", cut, b"x", refused(16, 0)),
        ("an offset that no pattern asks for", in_table(3, 15), b"", kept),
        ("a pattern of no bytes", stack.clone(), b"\0", refused(17, 0)),
        ("seventeen patterns", stack.clone(), b"a\0b\0c\0d\0e\0f\0g\0h\0i\0j\0k\0l\0m\0n\0o\0p\0q", refused(17, 0)),
        ("sixteen patterns", stack, b"a\0b\0c\0d\0e\0f\0g\0h\0i\0j\0k\0l\0m\0n\0o\0.st*\0", left_out),
    ]
}

/// The calls with patterns on `A` in some form, of which conversion answers this.
pub fn with_calls(what: &str, file: &[u8], row: &[u8], packed: u64) -> Vec<Entry> {
    let image: &[u8] = match packed {
        _ if packed == pack_convert(28, 1) => &P1,
        _ if packed == pack_convert(8, 0) => &[0; 8],
        _ => &[],
    };
    let new = |call: Call| Case::new(call, what).file(file).row(row);
    let placed = match image.len() {
        28 => pack_load(5),
        8 => pack_load(0),
        _ => packed,
    };
    let window: &[u8] = if image.len() == 28 { &RAW } else { &[] };
    let verdict = if image.is_empty() { packed } else { 0 };
    vec![
        Entry::new(new(Call::MeasureWith), packed, &[]),
        Entry::new(aa(new(Call::ConvertWith), 31), packed, image),
        Entry::new(aa(new(Call::LoadCoffWith).number(0x400), 8), placed, window),
        Entry::new(new(Call::CheckWith).image(if image.is_empty() { &P1 } else { image }), verdict, &[]),
    ]
}

pub fn entries() -> Vec<Entry> {
    let each = conversions().into_iter().flat_map(|(what, file, row, packed)| with_calls(what, &file, row, packed));
    let mut all: Vec<Entry> = each.collect();
    let mut add = |case: Case, packed: u64, start: &[u8]| all.push(Entry::new(case, packed, start));
    let stack = named(b".stack\0\0");
    let check = |what: &str, image: &[u8]| Case::new(Call::CheckWith, what).file(&stack).row(b".stack").image(image);
    add(check("an image made without the pattern", &P1), refused(41, 0), &[]);
    add(check("another entry point", &[1, 0, 0, 0, 0, 0, 0, 0]), refused(40, 0), &[]);
    let load = |row: &[u8]| Case::new(Call::LoadCoffWith, "a window past 2^32").file(&stack).row(row).number(1 << 32);
    add(aa(load(b".stack"), 1), refused(28, 0), &[]);
    add(aa(load(b"\0"), 1), refused(17, 0), &[]);
    all
}

#[cfg(test)]
mod tests {
    use crate::bench::wrong;

    #[test]
    fn all_entries_pass() {
        for entry in super::entries() {
            assert_eq!(wrong(&entry), None, "{}", entry.case.what);
        }
    }
}
