//! Whether a pattern takes a name, which it does as a whole. Three ways that
//! have nothing in common: the sentence of the paper, two pointers, and all
//! places of the pattern at once.

/// The paper's sentence: a question mark stands for one character, a star takes
/// nothing or takes one character and stays, any other byte stands for itself.
pub fn by_definition(pattern: &[u8], name: &[u8]) -> bool {
    let (first, rest) = match pattern.split_first() {
        Some(parts) => parts,
        None => return name.is_empty(),
    };
    let later = name.get(1..);
    match first {
        b'*' => by_definition(rest, name) || later.map_or(false, |later| by_definition(pattern, later)),
        b'?' => later.map_or(false, |later| by_definition(rest, later)),
        byte => name.first() == Some(byte) && by_definition(rest, &name[1..]),
    }
}

/// Goes on in both as long as they agree. Where they do not, the last star takes
/// one character more, and what stands behind it is tried from there on.
pub fn by_two_pointers(pattern: &[u8], name: &[u8]) -> bool {
    let (mut p, mut n) = (0, 0);
    // Behind the last star, and where the rest of the name is tried.
    let mut last: Option<(usize, usize)> = None;
    while n < name.len() {
        match pattern.get(p) {
            Some(b'*') => {
                p += 1;
                last = Some((p, n));
                continue;
            }
            Some(&byte) if byte == b'?' || byte == name[n] => {
                (p, n) = (p + 1, n + 1);
                continue;
            }
            _ => {}
        }
        match last {
            None => return false,
            Some((behind, tried)) => {
                (p, n) = (behind, tried + 1);
                last = Some((behind, tried + 1));
            }
        }
    }
    pattern[p..].iter().all(|&b| b == b'*')
}

/// A star that is reached is also passed, for it may take nothing.
fn pass_stars(pattern: &[u8], reached: &mut [bool]) {
    for (i, &byte) in pattern.iter().enumerate() {
        if reached[i] && byte == b'*' {
            reached[i + 1] = true;
        }
    }
}

/// Which places of the pattern can be reached by what has been seen of the name,
/// a byte at a time. Takes pattern times name steps in any case.
pub fn by_places(pattern: &[u8], name: &[u8]) -> bool {
    let mut reached = vec![false; pattern.len() + 1];
    let mut next = reached.clone();
    reached[0] = true;
    pass_stars(pattern, &mut reached);
    for &character in name {
        next.fill(false);
        for (i, &byte) in pattern.iter().enumerate() {
            if !reached[i] {
                continue;
            }
            match byte {
                b'*' => next[i] = true,
                _ if byte == b'?' || byte == character => next[i + 1] = true,
                _ => {}
            }
        }
        pass_stars(pattern, &mut next);
        std::mem::swap(&mut reached, &mut next);
    }
    reached[pattern.len()]
}

/// The definition takes as many steps as there are ways for the stars to share
/// the name; with so few there are some thousands at most.
pub fn is_short(pattern: &[u8], name: &[u8]) -> bool {
    let stars = pattern.iter().filter(|&&b| b == b'*').count();
    stars * name.len() <= 40
}

/// By the definition where that is short, else by two pointers.
pub fn takes(pattern: &[u8], name: &[u8]) -> bool {
    if is_short(pattern, name) {
        by_definition(pattern, name)
    } else {
        by_two_pointers(pattern, name)
    }
}

/// All rows of bytes of these letters, up to this length.
pub fn words(letters: &[u8], most: usize) -> Vec<Vec<u8>> {
    let mut all = vec![Vec::new()];
    let mut from = 0;
    for _ in 0..most {
        let end = all.len();
        for i in from..end {
            for &letter in letters {
                let mut word = all[i].clone();
                word.push(letter);
                all.push(word);
            }
        }
        from = end;
    }
    all
}

#[cfg(test)]
mod tests {
    use super::*;

    #[test]
    fn all_short_ones_agree() {
        let names = words(b"ab", 5);
        for pattern in words(b"ab?*", 5) {
            for name in &names {
                let taken = by_definition(&pattern, name);
                assert_eq!(by_two_pointers(&pattern, name), taken, "{pattern:?} {name:?}");
                assert_eq!(by_places(&pattern, name), taken, "{pattern:?} {name:?}");
            }
        }
    }

    #[test]
    fn what_the_header_says() {
        for (pattern, name, taken) in [
            (".test", ".test2", false),
            (".test*", ".test2", true),
            (".test*", ".test", true),
            (".s0?1", ".s001", true),
            (".s0?1", ".s01", false),
            (".TEXT", ".text", false),
            ("*", "", true),
            ("?", "", false),
            ("a*b*c", "abbcbc", true),
            ("a*b*c", "acb", false),
            ("\\*", "*", false),
            ("\\*", "\\", true),
        ] {
            assert_eq!(takes(pattern.as_bytes(), name.as_bytes()), taken, "{pattern} {name}");
        }
    }
}
