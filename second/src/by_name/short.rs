//! Names in headers: each length, each place of the first zero byte, and what may
//! stand behind it.

use super::{calls, calls_expect, two_sections};
use crate::calls::Case;

const LETTERS: [u8; 8] = *b"abcdefgh";

/// Rows around a name: itself, a byte less or more or another, as many question
/// marks, a byte less or more of them, and stars.
fn rows_for(name: &[u8]) -> Vec<Vec<u8>> {
    let mut rows: Vec<Vec<u8>> = Vec::new();
    let length = name.len();
    for marks in [length.saturating_sub(1), length, length + 1] {
        rows.push(vec![b'?'; marks]);
    }
    rows.push(b"*".to_vec());
    rows.push([name, b"*"].concat());
    rows.push([name, b"?"].concat());
    rows.push([name, b"z"].concat());
    rows.push([b"*", name].concat());
    rows.push([name, b"ij"].concat());
    rows.push(name.to_ascii_uppercase());
    rows.push(name.to_vec());
    for at in 0..length {
        rows.push(name[..at].to_vec());
        rows.push([&name[..at], b"*"].concat());
        rows.push([b"*", &name[at + 1..]].concat());
        rows.push([&name[..at], b"?", &name[at + 1..]].concat());
        rows.push([&name[..at], b"z", &name[at + 1..]].concat());
    }
    rows.sort();
    rows.dedup();
    rows
}

/// The first letters, a zero byte, and this behind it.
fn field(length: usize, behind: u8) -> [u8; 8] {
    let mut field = [behind; 8];
    field[..length].copy_from_slice(&LETTERS[..length]);
    if length < 8 {
        field[length] = 0;
    }
    field
}

/// Byte 0 is zero and one of the next three is not: the empty name, whatever stands
/// behind, for it is no offset.
fn empty_names() -> Vec<[u8; 8]> {
    let mut all = vec![[0; 8]];
    for at in 1..4 {
        for behind in [[0, 0, 0, 0], [1, 0, 0, 0], [4, 0, 0, 0], [0xff; 4], *b"abcd"] {
            let mut field = [0; 8];
            field[at] = b'x';
            field[4..].copy_from_slice(&behind);
            all.push(field);
        }
    }
    all
}

pub fn cases(all: &mut Vec<Case>) {
    for length in 1..=8 {
        for behind in [0, b'y', 0xff] {
            let file = two_sections(field(length, behind)).bytes();
            for row in rows_for(&LETTERS[..length]) {
                calls(&format!("a name of {length} bytes"), &file, &row, all);
            }
        }
    }
    for field in empty_names() {
        let file = two_sections(field).bytes();
        for row in [b"".as_slice(), b"*", b"?", b"?*", b"**", b"x*", b"abcd", b"x\0*", b".rest", b"*\0.rest"] {
            calls_expect("the empty name", &file, row, 0, 0, all);
        }
    }
    // Each byte but zero in a name, and in a pattern.
    for byte in 1..=255 {
        let mut field = [0; 8];
        field[0] = byte;
        let file = two_sections(field).bytes();
        for row in [vec![byte], vec![byte ^ 0x20], vec![byte, b'*'], vec![b'?']] {
            if row[0] != 0 {
                calls_expect("a name of one byte", &file, &row, 0, 0, all);
            }
        }
    }
}
