//! One pattern and one name: all short ones, each byte, each length.

use crate::calls::{Call, Case, Input};
use crate::answer::ADDRESSES;
use crate::matching::words;

fn takes(what: &str, pattern: &[u8], name: &[u8]) -> Case {
    Case::new(Call::Takes, what).file(name).row(pattern)
}

/// All patterns and names of few letters up to a length.
fn all_short(all: &mut Vec<Case>) {
    let names = words(b"ab", 4);
    for pattern in words(b"ab?*", 4) {
        for name in &names {
            all.push(takes("short", &pattern, name));
        }
    }
}

/// Each byte in a name beside each kind of pattern; zero is a byte like others here.
fn each_byte(all: &mut Vec<Case>) {
    for byte in 0..=255u8 {
        for pattern in [vec![byte], vec![byte ^ 0x20], vec![byte, byte], vec![b'?'], vec![b'*'], vec![b'*', byte], vec![byte, b'*']] {
            all.push(takes("one byte", &pattern, &[byte]));
            all.push(takes("two bytes", &pattern, &[byte, byte ^ 1]));
        }
    }
    for (byte, other) in [(b'*', b'+'), (b'?', b'>'), (b'*', b'*' | 0x80), (b'?', b'?' | 0x80), (b'[', b'\\')] {
        for name in [vec![byte], vec![other], vec![byte, other]] {
            for pattern in [vec![byte], vec![other], vec![b'\\', byte], vec![b'[', byte, b']']] {
                all.push(takes("characters that mean something elsewhere", &pattern, &name));
            }
        }
    }
}

/// Patterns and names around the limit of a pattern.
fn lengths(all: &mut Vec<Case>) {
    for length in [0, 1, 2, 31, 32, 33, 63, 64, 65, 66, 127, 128, 255, 256, 257, 320, 4096] {
        let patterns = [vec![b'*'; length], vec![b'?'; length], vec![b'a'; length]];
        for pattern in &patterns {
            for name in [0, 1, length.saturating_sub(1), length, length + 1, 64, 65, 300] {
                all.push(takes("a length", pattern, &vec![b'a'; name]));
            }
        }
    }
    for bytes in [b"a".as_slice(), b"*", b""] {
        let pattern = Input::longer(bytes.to_vec(), ADDRESSES + 1);
        all.push(Case::new(Call::Takes, "pattern length 2^32 more").file(b"a").row_input(pattern));
    }
}

/// A star after another has failed everywhere: no earlier one helps.
fn many_stars(all: &mut Vec<Case>) {
    for stars in 1..=32 {
        for last in [b'a', b'b', b'?', b'*'] {
            let mut pattern = b"*a".repeat(stars);
            *pattern.last_mut().unwrap() = last;
            for length in [stars - 1, stars, stars + 1, 40, 100] {
                let mut name = vec![b'a'; length];
                all.push(takes("many stars", &pattern, &name));
                name.push(b'b');
                all.push(takes("many stars, b last", &pattern, &name));
                name.push(b'a');
                all.push(takes("many stars, b before the last", &pattern, &name));
            }
        }
    }
}

pub fn cases(all: &mut Vec<Case>) {
    all_short(all);
    each_byte(all);
    lengths(all);
    many_stars(all);
}
