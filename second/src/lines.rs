//! A listing read back: its words and numbers, by other means than they were
//! written with.

/// A number as a listing writes it: no sign, no zero before it.
fn decimal(word: &str) -> Option<u64> {
    let digits = word.bytes().all(|b| b.is_ascii_digit());
    let shortest = word == "0" || !word.starts_with('0');
    if digits && shortest { word.parse().ok() } else { None }
}

/// Eight digits, in upper case.
fn hex(word: &str) -> Option<u64> {
    let digits = word.len() == 8 && word.bytes().all(|b| b"0123456789ABCDEF".contains(&b));
    if digits { u64::from_str_radix(word, 16).ok() } else { None }
}

/// The numbers of a line in this form: `#` stands for a decimal one, `@` for
/// one in hex, and every other word for itself.
fn numbers(line: &str, form: &str) -> Option<Vec<u64>> {
    if line.split(' ').count() != form.split(' ').count() {
        return None;
    }
    let mut found = Vec::new();
    for (word, wanted) in line.split(' ').zip(form.split(' ')) {
        match wanted {
            "#" => found.push(decimal(word)?),
            "@" => found.push(hex(word)?),
            _ if word == wanted => {}
            _ => return None,
        }
    }
    Some(found)
}

/// True when the text has these lines, each with its form and its numbers, and
/// nothing else.
pub fn says(text: &[u8], rows: &[(&str, Vec<u64>)]) -> bool {
    let text = match std::str::from_utf8(text).ok().and_then(|t| t.strip_suffix('\n')) {
        Some(text) => text,
        None => return false,
    };
    let lines: Vec<&str> = text.split('\n').collect();
    let same = |(line, (form, values)): (&&str, &(&str, Vec<u64>))| numbers(line, form).as_ref() == Some(values);
    lines.len() == rows.len() && lines.iter().zip(rows).all(same)
}

#[cfg(test)]
mod tests {
    use super::says;

    #[test]
    fn only_the_exact_lines() {
        let rows = [("a # b @", vec![10, 0xab]), ("image #", vec![0])];
        assert!(says(b"a 10 b 000000AB\nimage 0\n", &rows));
        for wrong in [
            "a 10 b 000000AB\nimage 0",
            "a 10 b 000000AB\nimage 0\n\n",
            "a 10 b 000000AB\r\nimage 0\n",
            "a 10 b 000000AB\nimage 00\n",
            "a 10 b 000000AB\nimage +0\n",
            "a 10 b 000000AB\nimage \n",
            "a 10 b 000000ab\nimage 0\n",
            "a 10 b 00000AB\nimage 0\n",
            "a 10  b 000000AB\nimage 0\n",
            "a 10 b 000000AB \nimage 0\n",
            "a 10 b 000000AC\nimage 0\n",
            "a 10 b 000000AB\n",
            "",
        ] {
            assert!(!says(wrong.as_bytes(), &rows), "{wrong:?}");
        }
    }
}
