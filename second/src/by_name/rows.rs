//! Rows of patterns: how many, how long, how they end.

use super::{at_offset, calls_expect, two_sections};
use crate::answer::{ADDRESSES, MOST};
use crate::calls::{Call, Case, Input, CALLS_WITH};
use crate::edges::Maker;
use crate::fields::push_u32;

/// A row of so many patterns, the last of them this one.
fn many(count: usize, last: &[u8]) -> Vec<u8> {
    let mut row = b"x\0".repeat(count - 1);
    row.extend_from_slice(last);
    row
}

fn with_and_without_end(what: &str, file: &[u8], row: &[u8], code: u8, all: &mut Vec<Case>) {
    calls_expect(what, file, row, code, 0, all);
    calls_expect(what, file, &[row, b"\0"].concat(), code, 0, all);
}

fn counts(file: &[u8], all: &mut Vec<Case>) {
    calls_expect("no pattern", file, b"", 0, 0, all);
    for count in [1, 2, 15, 16, 17, 18, 32, 33, 255, 256, 257, 300] {
        let code = if count > 16 { 17 } else { 0 };
        for last in [b"x".as_slice(), b"name", b"*"] {
            with_and_without_end(&format!("{count} patterns"), file, &many(count, last), code, all);
        }
    }
}

/// A pattern of this length that takes `name`, and one that does not.
fn of_length(length: usize) -> [Vec<u8>; 2] {
    let mut stars = b"name".to_vec();
    stars.resize(length, b'*');
    [stars, vec![b'n'; length]]
}

fn lengths(file: &[u8], all: &mut Vec<Case>) {
    for length in [1, 2, 4, 5, 63, 64, 65, 66, 127, 128, 129, 255, 256, 257, 320, 321, 1000, 65_536 + 4] {
        let code = if length > 64 { 17 } else { 0 };
        for pattern in of_length(length) {
            let what = format!("a pattern of {length} bytes");
            with_and_without_end(&what, file, &pattern, code, all);
            with_and_without_end(&what, file, &[b"x\0", pattern.as_slice()].concat(), code, all);
            with_and_without_end(&what, file, &[pattern.as_slice(), b"\0x"].concat(), code, all);
            with_and_without_end(&what, file, &many(16, &pattern), code, all);
        }
    }
    for row in [b"\0".as_slice(), b"\0\0", b"name\0\0", b"\0name", b"\0name\0", b"name\0\0x", b"x\0\0name\0", b"x\0name\0\0"] {
        calls_expect("a pattern of no bytes", file, row, 17, 0, all);
    }
    // The last of sixteen is empty: it ends with a zero byte of its own.
    calls_expect("sixteen, one empty", file, &[many(15, b"x").as_slice(), b"\0\0"].concat(), 17, 0, all);
    calls_expect("sixteen and a zero byte more", file, &[many(16, b"x").as_slice(), b"\0\0"].concat(), 17, 0, all);
}

/// A name as long as the longest pattern, and one byte longer.
fn longest(all: &mut Vec<Case>) {
    for length in [63, 64, 65] {
        let mut file = two_sections(at_offset(4));
        file.symbols_in_body = Some(file.body.len());
        push_u32(&mut file.body, 4 + length + 1);
        let name = vec![b'n'; length as usize];
        file.body.extend_from_slice(&name);
        file.body.push(0);
        let file = file.bytes();
        let marks = vec![b'?'; 64];
        let stars = b"*n".repeat(32);
        let star_last = [&name[..63], b"*"].concat();
        for row in [name[..63].to_vec(), vec![b'n'; 64], marks, stars, star_last] {
            with_and_without_end(&format!("a name of {length} bytes"), &file, &row, 0, all);
        }
    }
}

pub fn cases(all: &mut Vec<Case>) {
    let file = two_sections(*b"name\0\0\0\0").bytes();
    counts(&file, all);
    lengths(&file, all);
    longest(all);
}

/// Rows far over the limit, and rows whose length has lowest 32 bits of a sound one.
pub fn long(all: &mut Vec<Maker>) {
    let mut add = |what: &'static str, make: fn() -> Input| {
        for call in CALLS_WITH {
            all.push(Box::new(move || {
                let file = two_sections(*b"name\0\0\0\0").bytes();
                let case = Case::new(call, what).file(&file).row_input(make());
                let case = if call == Call::CheckWith { case.image(&[0; 8]) } else { case };
                case.number(0x400).lent(8).expect_at(17, 0)
            }));
        }
    };
    add("row of 2^32 zeros", || Input::longer(Vec::new(), ADDRESSES));
    add("row length 2^32 more", || Input::longer(b"name".to_vec(), ADDRESSES + 4));
    add("row of 16 MiB without a zero byte", || Input::of(vec![b'*'; MOST as usize]));
}
