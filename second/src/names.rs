//! The name of a section: in its header, or in the string table (rule 16).

use crate::fields::u32_at;

const SYMBOL: u64 = 18;
const SIZE_FIELD: u64 = 4;

/// The string table, from its size field on.
pub struct Table<'a> {
    /// What its size field says; none when the file ends before it does.
    said: Option<u64>,
    /// As many bytes as that, or as the file holds.
    bytes: &'a [u8],
}

/// It stands behind the symbols. In 64 bits its place does not wrap.
pub fn string_table(file: &[u8]) -> Table<'_> {
    let symbols_at = u64::from(u32_at(file, 8));
    let symbols = u64::from(u32_at(file, 12));
    let at = symbols_at + SYMBOL * symbols;
    if at + SIZE_FIELD > file.len() as u64 {
        return Table { said: None, bytes: &[] };
    }
    let rest = &file[at as usize..];
    let said = u64::from(u32_at(rest, 0));
    let held = said.min(rest.len() as u64) as usize;
    Table { said: Some(said), bytes: &rest[..held] }
}

/// Up to the first zero byte, if there is one.
fn up_to_zero(bytes: &[u8]) -> Option<&[u8]> {
    bytes.iter().position(|&b| b == 0).map(|end| &bytes[..end])
}

/// The name at this offset, counted from the table's first byte; else why there
/// is none.
fn in_table<'a>(table: &Table<'a>, offset: u64) -> Result<&'a [u8], &'static str> {
    if offset < SIZE_FIELD {
        return Err("offset under 4");
    }
    let said = table.said.ok_or("no string table")?;
    if offset >= said {
        return Err("offset past the table");
    }
    let held = table.bytes.len() as u64;
    if offset >= held {
        return Err("offset past the file");
    }
    let cause = if held < said { "file ends in the name" } else { "table ends in the name" };
    up_to_zero(&table.bytes[offset as usize..]).ok_or(cause)
}

/// The name that the first eight bytes of a section header give.
pub fn name<'a>(header: &'a [u8], table: &Table<'a>) -> Result<&'a [u8], &'static str> {
    let field = &header[..8];
    let offset = u32_at(field, 4);
    if u32_at(field, 0) == 0 && offset != 0 {
        return in_table(table, u64::from(offset));
    }
    Ok(up_to_zero(field).unwrap_or(field))
}

#[cfg(test)]
mod tests {
    use super::*;

    #[test]
    fn names_in_headers() {
        let none = Table { said: None, bytes: &[] };
        assert_eq!(name(b"\0\0\0\0\0\0\0\0", &none), Ok(b"".as_slice()));
        assert_eq!(name(b"\0\0\0a\0\0\0\0", &none), Ok(b"".as_slice()));
        assert_eq!(name(b"\0\0\0a\x05\0\0\0", &none), Ok(b"".as_slice()));
        assert_eq!(name(b"abcdefgh", &none), Ok(b"abcdefgh".as_slice()));
        assert_eq!(name(b"abc\0efgh", &none), Ok(b"abc".as_slice()));
        assert_eq!(name(b"\0\0\0\0\x04\0\0\0", &none), Err("no string table"));
    }

    #[test]
    fn names_in_the_table() {
        let bytes = b"\x0a\0\0\0ab\0cd\0";
        let table = Table { said: Some(10), bytes };
        let at = |offset: u64| in_table(&table, offset);
        assert_eq!(at(3), Err("offset under 4"));
        assert_eq!(at(4), Ok(b"ab".as_slice()));
        assert_eq!(at(5), Ok(b"b".as_slice()));
        assert_eq!(at(6), Ok(b"".as_slice()));
        assert_eq!(at(9), Ok(b"".as_slice()));
        assert_eq!(at(10), Err("offset past the table"));
        let cut = Table { said: Some(9), bytes: &bytes[..9] };
        assert_eq!(in_table(&cut, 7), Err("table ends in the name"));
        let short = Table { said: Some(10), bytes: &bytes[..8] };
        assert_eq!(in_table(&short, 4), Ok(b"ab".as_slice()));
        assert_eq!(in_table(&short, 7), Err("file ends in the name"));
        assert_eq!(in_table(&short, 8), Err("offset past the file"));
    }
}
