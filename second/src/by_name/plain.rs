//! Names of plain sections: read where there is raw data, as those of others are,
//! and not read where its offset is 0.

use super::tables::{table_at, with_table, TABLE};
use super::{at_offset, calls_expect, two_sections};
use crate::calls::Case;
use crate::make::File;

/// No flag at all, and flags that make no difference.
const PLAIN: [u32; 3] = [0, 0x4100, 0xffff_7f00];

/// The first section of such a file becomes a plain one; without an offset it keeps
/// its own.
fn plain(mut file: File, flags: u32, raw: Option<u32>) -> File {
    let first = &mut file.sections[0];
    first.flags = flags;
    first.raw = raw.unwrap_or(first.raw);
    file
}

/// Rule 16, each way: the offset, the size of the table, and how much of it the file has.
fn unreadable(all: &mut Vec<Case>) {
    let ways = [
        ("offset under 4", 3, TABLE, TABLE),
        ("offset past the table", TABLE, TABLE, TABLE),
        ("offset past the file", TABLE + 1, TABLE + 9, TABLE),
        ("the table ends in the name", TABLE - 1, TABLE, TABLE),
        ("the file ends in the name", TABLE - 1, TABLE + 1, TABLE),
        ("the file ends in the table", 4, TABLE, 6),
        ("no string table", 4, TABLE, 3),
    ];
    for flags in PLAIN {
        for (what, offset, size, held) in ways {
            for (raw, code) in [(None, 16), (Some(1), 16), (Some(0xffff_ffff), 16), (Some(0), 0)] {
                let file = plain(with_table(offset, size), flags, raw).bytes();
                let file = &file[..(table_at() + held) as usize];
                for row in [b"*".as_slice(), b"x\0.rest"] {
                    calls_expect(&format!("plain by {flags:x}, raw offset {raw:?}: {what}"), file, row, code, 0, all);
                }
            }
            // Another flag of the nine, and the name is not read.
            for other in [0x1, 0x2, 0x4, 0x8, 0x10, 0x80] {
                let file = plain(with_table(offset, size), flags | other, None).bytes();
                let file = &file[..(table_at() + held) as usize];
                calls_expect(&format!("flags {:x}: {what}", flags | other), file, b"*", 0, 0, all);
            }
        }
    }
}

/// A pattern that takes the name, before rule 10 is asked; and one that does not.
fn readable(all: &mut Vec<Case>) {
    let names: [(File, &[u8]); 3] = [
        (two_sections(*b".coeff\0\0"), b".coeff"),
        (two_sections(*b".coeff_a"), b".coeff??"),
        (with_table(10, TABLE), b"second one"),
    ];
    for flags in PLAIN {
        for (file, name) in &names {
            for (raw, code) in [(None, 0), (Some(0), 0), (Some(1), 10), (Some(0xffff_ffff), 10)] {
                let file = plain(file.clone(), flags, raw).bytes();
                let what = format!("plain by {flags:x}, raw offset {raw:?}");
                for row in [b"".as_slice(), b"x", b".rest", b".coef", b"first\0.rest"] {
                    calls_expect(&what, &file, row, code, 0, all);
                }
                let also = [name, b"\0.rest".as_slice()].concat();
                for row in [name, b"*".as_slice(), &also] {
                    calls_expect(&format!("{what}, left out"), &file, row, 0, 0, all);
                }
            }
        }
    }
}

/// Both sections are plain; the first has no raw data and no name, and the second is
/// judged as if it stood alone.
fn behind_another(all: &mut Vec<Case>) {
    for (raw, row, code, index) in [
        (None, b".rest".as_slice(), 0, 0),
        (None, b"x", 0, 0),
        (Some(1), b"x", 10, 1),
        (Some(1), b".r*", 0, 0),
        (Some(0), b"x", 0, 0),
    ] {
        let mut file = plain(two_sections(at_offset(3)), 0, Some(0));
        let second = &mut file.sections[1];
        second.flags = 0;
        second.raw = raw.unwrap_or(second.raw);
        calls_expect("behind one without raw data", &file.bytes(), row, code, index, all);
    }
}

pub fn cases(all: &mut Vec<Case>) {
    unreadable(all);
    readable(all);
    behind_another(all);
}
