//! Names as long as a file can hold, under patterns of many stars: time must grow
//! with pattern times name, and stack with the pattern alone.

use super::{at_offset, two_sections};
use crate::answer::MOST;
use crate::calls::{Call, Case, CALLS_WITH};
use crate::edges::Maker;
use crate::fields::push_u32;

const MILLION: usize = 1_000_000;

/// So many times `a`, and this behind them.
fn name(length: usize, last: &[u8]) -> Vec<u8> {
    let mut name = vec![b'a'; length - last.len()];
    name.extend_from_slice(last);
    name
}

/// Patterns that try every place in vain or find the last one.
fn patterns() -> Vec<Vec<u8>> {
    let mut late = vec![b'*'];
    late.extend_from_slice(&[b'a'; 62]);
    late.push(b'b');
    vec![
        b"*a*a*a*a*b".to_vec(),
        b"*a".repeat(32),
        [b"*a".repeat(31).as_slice(), b"*b"].concat(),
        b"*?".repeat(32),
        b"*?*ab*a?*ba*?b*a*a?*b*?a*".to_vec(),
        b"a*aaaaaaaaaaaaaaaaab*aaaaaaaaaaaaaaaaac".to_vec(),
        vec![b'*'; 64],
        late,
    ]
}

/// A file whose first section has this name, in a string table behind it.
fn file(name: &[u8]) -> Vec<u8> {
    let mut file = two_sections(at_offset(4));
    file.symbols_in_body = Some(file.body.len());
    push_u32(&mut file.body, 4 + name.len() as u32 + 1);
    file.body.extend_from_slice(name);
    file.body.push(0);
    file.bytes()
}

/// The longest name that fits a file: nothing else stands behind the sections.
fn longest() -> usize {
    MOST as usize - file(b"").len()
}

fn calls(all: &mut Vec<Maker>) {
    for call in CALLS_WITH {
        for (pattern, last) in [(b"*a*a*a*a*b".as_slice(), b"b".as_slice()), (b"*a*a*a*a*b", b"c"), (b"*a\0*b*\0?*c", b"c")] {
            all.push(Box::new(move || {
                let case = Case::new(call, "a name of a million bytes").file(&file(&name(MILLION, last))).row(pattern);
                case.image(&[0; 8]).number(0x400).lent(64)
            }));
        }
    }
    all.push(Box::new(move || {
        let file = file(&name(longest(), b"b"));
        Case::new(Call::ConvertWith, "the longest name, left out").file(&file).row(b"*a*a*a*a*b").lent(24).expect_at(0, 0)
    }));
    all.push(Box::new(move || {
        let file = file(&name(longest(), b"c"));
        Case::new(Call::MeasureWith, "the longest name").file(&file).row(b"*a*a*a*a*b").expect_at(0, 0)
    }));
    all.push(Box::new(move || {
        let mut file = file(&name(longest(), b"b"));
        *file.last_mut().unwrap() = b'z';
        Case::new(Call::LoadCoffWith, "the longest name, without an end").file(&file).row(b"*").expect_at(16, 0)
    }));
}

pub fn makers(all: &mut Vec<Maker>) {
    for pattern in patterns() {
        for last in [b"b".as_slice(), b"c", b"ba"] {
            let pattern = pattern.clone();
            all.push(Box::new(move || {
                Case::new(Call::Takes, "a name of a million bytes").file(&name(MILLION, last)).row(&pattern)
            }));
        }
    }
    for (pattern, last) in [(b"*a*a*a*a*b".as_slice(), b"b".as_slice()), (b"*a*a*a*a*b", b"a"), (b"*a*a*a*a*b*aab", b"a")] {
        all.push(Box::new(move || {
            Case::new(Call::Takes, "a name of 16 MiB").file(&name(MOST as usize, last)).row(pattern)
        }));
    }
    calls(all);
}
