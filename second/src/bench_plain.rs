//! The bench's file `A` with other flags, sizes and raw data offsets, and as a plain
//! section under patterns. The outcomes were written down by hand.

use crate::answer::{pack_convert, pack_list, pack_load};
use crate::bench::{a_as, aa, refused, Entry, A_LISTED, P1, RAW};
use crate::bench_names::with_calls;
use crate::calls::{Call, Case};

/// The listing of `A` whose section is not kept.
pub const NONE_LISTED: &str = "coff sections 1 kept 0 entry 00000000\nimage 8\n";

#[derive(Clone, Copy)]
enum Answer {
    /// As P1 says.
    Kept,
    /// As P6 says.
    NotKept,
    /// Rule 10, index 0.
    Refused,
}
use Answer::{Kept, NotKept, Refused};

/// Flags, size and raw data offset of the section, and what becomes of it.
const ROWS: [(&str, u32, u32, u32, Answer); 41] = [
    ("flags 0", 0, 5, 70, Kept),
    ("flags 0, raw offset 0", 0, 5, 0, NotKept),
    ("flags 0, raw offset 1", 0, 5, 1, Refused),
    ("flags 0, raw offset 69", 0, 5, 69, Refused),
    ("flags 0, raw offset 71", 0, 5, 71, Refused),
    ("flags 0, raw offset FFFFFFFFh", 0, 5, 0xffff_ffff, Refused),
    ("flags 0, size 0", 0, 0, 70, NotKept),
    ("flags 0, size 0, raw offset 1", 0, 0, 1, NotKept),
    ("flags 0, size FFFFFFFFh", 0, 0xffff_ffff, 70, Refused),
    ("flags 0, size FFFFFFFFh, raw offset 0", 0, 0xffff_ffff, 0, NotKept),
    ("1h alone", 0x1, 5, 70, NotKept),
    ("2h alone", 0x2, 5, 70, NotKept),
    ("4h alone", 0x4, 5, 70, NotKept),
    ("8h alone", 0x8, 5, 70, NotKept),
    ("10h alone", 0x10, 5, 70, NotKept),
    ("20h alone", 0x20, 5, 70, Kept),
    ("40h alone", 0x40, 5, 70, Kept),
    ("80h alone", 0x80, 5, 70, NotKept),
    ("8000h alone", 0x8000, 5, 70, Kept),
    ("4h alone, raw offset 1", 0x4, 5, 1, NotKept),
    ("8h alone, raw offset 1", 0x8, 5, 1, NotKept),
    ("80h alone, raw offset 1", 0x80, 5, 1, NotKept),
    ("20h, raw offset 0", 0x20, 5, 0, Refused),
    ("40h, raw offset 0", 0x40, 5, 0, Refused),
    ("8000h, raw offset 0", 0x8000, 5, 0, Refused),
    ("20h with 4h", 0x24, 5, 70, Kept),
    ("20h with 8h", 0x28, 5, 70, Kept),
    ("20h with 80h", 0xa0, 5, 70, Kept),
    ("20h with 10h", 0x30, 5, 70, NotKept),
    ("100h alone", 0x100, 5, 70, Kept),
    ("100h alone, raw offset 0", 0x100, 5, 0, NotKept),
    ("100h alone, raw offset 1", 0x100, 5, 1, Refused),
    ("F00h alone", 0xf00, 5, 70, Kept),
    ("1000h alone", 0x1000, 5, 70, Kept),
    ("2000h alone", 0x2000, 5, 70, Kept),
    ("4000h alone", 0x4000, 5, 70, Kept),
    ("4000h alone, raw offset 0", 0x4000, 5, 0, NotKept),
    ("10000h alone", 0x1_0000, 5, 70, Kept),
    ("80000000h alone", 0x8000_0000, 5, 70, Kept),
    ("all flags but the nine", 0xffff_7f00, 5, 70, Kept),
    ("all flags but the nine, and 4h", 0xffff_7f04, 5, 70, NotKept),
];

/// Each call on the file, and what it answers.
fn calls(what: &str, file: &[u8], answer: Answer) -> Vec<Entry> {
    let new = |call: Call| Case::new(call, what).file(file);
    let (measured, image, placed, bytes, listed, verdict): (u64, &[u8], u64, &[u8], &str, u64) = match answer {
        Kept => (pack_convert(28, 1), &P1, pack_load(5), &RAW, A_LISTED, 0),
        NotKept => (pack_convert(8, 0), &[0; 8], 0, &[], NONE_LISTED, refused(41, 0)),
        Refused => (refused(10, 0), &[], refused(10, 0), &[], "", refused(10, 0)),
    };
    let text = if listed.is_empty() { measured } else { pack_list(listed.len() as u64) };
    vec![
        Entry::new(new(Call::Measure), measured, &[]),
        Entry::new(aa(new(Call::Convert), 31), measured, image),
        Entry::new(aa(new(Call::List), 90), text, listed.as_bytes()),
        Entry::new(aa(new(Call::LoadCoff).number(0x400), 8), placed, bytes),
        Entry::new(new(Call::Check).image(&P1), verdict, &[]),
    ]
}

/// The plain section under a name, and patterns.
fn named() -> Vec<(&'static str, Vec<u8>, &'static [u8], u64)> {
    let (kept, left_out) = (pack_convert(28, 1), pack_convert(8, 0));
    let named = |name: &[u8; 8], raw: u32| {
        let mut file = a_as(0, 5, raw);
        file[22..30].copy_from_slice(name);
        file
    };
    let coeff = |raw: u32| named(b".coeff\0\0", raw);
    // An offset under 4, where a name cannot be.
    let unreadable = |raw: u32| named(b"\0\0\0\0\x03\0\0\0", raw);
    vec![
        ("plain, no pattern", coeff(70), b"", kept),
        ("plain, the name itself", coeff(70), b".coeff", left_out),
        ("plain, a star", coeff(70), b".co*", left_out),
        ("plain, another name", coeff(70), b".stack\0.coef", kept),
        ("plain, left out before rule 10", coeff(1), b".coeff", left_out),
        ("plain, another name, raw offset 1", coeff(1), b".stack", refused(10, 0)),
        ("plain, another name, raw offset 0", coeff(0), b".stack", left_out),
        ("plain, unreadable name", unreadable(70), b".stack", refused(16, 0)),
        ("plain, unreadable name before rule 10", unreadable(1), b".stack", refused(16, 0)),
        ("plain, unreadable name, raw offset 0", unreadable(0), b".stack", left_out),
        ("plain, unreadable name, no pattern", unreadable(70), b"", kept),
    ]
}

pub fn entries() -> Vec<Entry> {
    let of_flags = ROWS.into_iter().flat_map(|(what, flags, size, raw, answer)| calls(what, &a_as(flags, size, raw), answer));
    let of_names = named().into_iter().flat_map(|(what, file, row, packed)| with_calls(what, &file, row, packed));
    of_flags.chain(of_names).collect()
}

/// What the listing program prints: its input, then its output.
pub fn printings() -> Vec<(&'static str, Vec<u8>, String)> {
    vec![
        ("flags 0 printed", a_as(0, 5, 70), A_LISTED.to_string()),
        ("flags 0, raw offset 0 printed", a_as(0, 5, 0), NONE_LISTED.to_string()),
        ("flags 0, raw offset 1 printed", a_as(0, 5, 1), "refused 10 0\n".to_string()),
    ]
}
