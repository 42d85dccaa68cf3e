//! Rows of patterns: such as take given names, others, and such as rule 17 refuses.

use crate::rng::Rng;

/// A row with these patterns; a zero byte behind the last one is drawn.
pub fn row(rng: &mut Rng, patterns: &[Vec<u8>]) -> Vec<u8> {
    let mut row = patterns.join(&0);
    if !patterns.is_empty() && rng.one_in(2) {
        row.push(0);
    }
    row
}

/// A pattern that takes this name: some characters become question marks, and
/// some stretches stars.
pub fn taking(rng: &mut Rng, name: &[u8]) -> Vec<u8> {
    let mut pattern = Vec::new();
    let star = rng.pick(&[3, 6, 1000]);
    let mark = rng.pick(&[3, 6, 1000]);
    let mut at = 0;
    while at < name.len() {
        if rng.one_in(star) {
            pattern.push(b'*');
            at += rng.index(name.len() - at + 1);
        } else {
            pattern.push(if rng.one_in(mark) { b'?' } else { name[at] });
            at += 1;
        }
    }
    if pattern.is_empty() || rng.one_in(6) {
        pattern.push(b'*');
    }
    pattern.truncate(64);
    pattern
}

const USUAL: [&str; 14] = [
    ".stack", ".test*", ".debug*", ".s0?1", "*", "?", "??", "a*", "*a", "*a*b", "????????", "*?*?*", "**", ".t??t*",
];

pub fn letters(rng: &mut Rng, of: &[u8], most: u64) -> Vec<u8> {
    let length = rng.range(1, most);
    (0..length).map(|_| rng.pick(of)).collect()
}

fn pattern(rng: &mut Rng, names: &[Vec<u8>]) -> Vec<u8> {
    match rng.below(10) {
        0..=4 if !names.is_empty() => {
            let name = &names[rng.index(names.len())];
            taking(rng, name)
        }
        5 | 6 => rng.pick(&USUAL).as_bytes().to_vec(),
        7 => letters(rng, b"ab?*", 12),
        8 => letters(rng, b"ab?*.stx", 64),
        _ => {
            let length = rng.range(1, 64);
            (0..length).map(|_| rng.range(1, 255) as u8).collect()
        }
    }
}

/// Patterns that are taken; some of them take some of these names.
pub fn sound(rng: &mut Rng, names: &[Vec<u8>]) -> Vec<Vec<u8>> {
    let count = match rng.below(16) {
        0 | 1 => 0,
        2..=9 => 1,
        10..=13 => rng.range(2, 5),
        14 => 16,
        _ => rng.range(6, 15),
    };
    (0..count).map(|_| pattern(rng, names)).collect()
}

/// A row that rule 17 refuses.
pub fn refused(rng: &mut Rng, names: &[Vec<u8>]) -> Vec<u8> {
    let mut patterns = sound(rng, names);
    match rng.below(4) {
        0 => {
            let more = rng.pick(&[17, 17, 18, 33]);
            patterns.resize(more, b"x".to_vec());
        }
        1 => {
            let length = rng.pick(&[65, 65, 66, 128, 256 + 64]);
            patterns.push(vec![b'*'; length]);
        }
        2 => {
            let mut row = row(rng, &patterns);
            if row.last().map_or(false, |&b| b != 0) {
                row.push(0);
            }
            row.push(0);
            return row;
        }
        _ => {
            let at = rng.index(patterns.len() + 1);
            patterns.insert(at, Vec::new());
            let mut row = patterns.join(&0);
            row.push(0);
            return row;
        }
    }
    row(rng, &patterns)
}
