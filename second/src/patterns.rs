//! The patterns of a call, which cross as one row of bytes: rule 17.

use crate::answer::{because, Refusal};
use crate::matching;

pub const MOST_PATTERNS: usize = 16;
pub const MOST_PATTERN_BYTES: usize = 64;

/// Why a pattern of this length cannot be one.
pub fn wrong_length(length: usize) -> Option<&'static str> {
    match length {
        0 => Some("pattern of no bytes"),
        1..=MOST_PATTERN_BYTES => None,
        _ => Some("pattern over 64 bytes"),
    }
}

/// Each pattern ends with a zero byte or with the row; no byte is no pattern.
pub fn read_patterns(row: &[u8]) -> Result<Vec<&[u8]>, Refusal> {
    let mut all = Vec::new();
    let mut rest = row;
    while !rest.is_empty() {
        let end = rest.iter().position(|&b| b == 0);
        let pattern = &rest[..end.unwrap_or(rest.len())];
        rest = match end {
            Some(end) => &rest[end + 1..],
            None => &[],
        };
        if all.len() == MOST_PATTERNS {
            return Err(because(17, 0, "over 16 patterns"));
        }
        if let Some(cause) = wrong_length(pattern.len()) {
            return Err(because(17, 0, cause));
        }
        all.push(pattern);
    }
    Ok(all)
}

/// Whether one of them takes the name.
pub fn any_takes(patterns: &[&[u8]], name: &[u8]) -> bool {
    patterns.iter().any(|pattern| matching::takes(pattern, name))
}

/// The call for one pattern and one name: the answer, and what it was about.
pub fn takes(pattern: &[u8], name: &[u8]) -> (u64, &'static str) {
    match wrong_length(pattern.len()) {
        Some(why) => (0, why),
        None if matching::takes(pattern, name) => (1, "takes"),
        None => (0, "does not take"),
    }
}

#[cfg(test)]
mod tests {
    use super::read_patterns;

    #[test]
    fn rows() {
        let count = |row: &[u8]| read_patterns(row).map(|p| p.len()).ok();
        assert_eq!(count(b""), Some(0));
        assert_eq!(count(b"a"), Some(1));
        assert_eq!(count(b"a\0"), Some(1));
        assert_eq!(count(b"a\0b"), Some(2));
        assert_eq!(count(b"a\0b\0"), Some(2));
        assert_eq!(count(b"\0"), None);
        assert_eq!(count(b"\0a"), None);
        assert_eq!(count(b"a\0\0"), None);
        assert_eq!(count(&b"x\0".repeat(16)), Some(16));
        assert_eq!(count(&b"x\0".repeat(17)), None);
        assert_eq!(count(&[b'x'; 64]), Some(1));
        assert_eq!(count(&[b'x'; 65]), None);
    }
}
