//! Patterns and names by other means. A call with patterns has to answer as the
//! plain call does of a file in which each section that a pattern takes is marked
//! as one that is not loaded; and rule 16 is found by ending that file's sections
//! before the first whose name cannot be read.

use crate::calls::{answer, Call, Case, Input, Own};
use crate::check::check;
use crate::coff::read_coff;
use crate::image::{convert, measure};
use crate::loader::load_image;
use crate::matching::{by_definition, by_places, by_two_pointers, is_short};
use crate::naive;
use crate::naive_order::{read_fault, rule_33, undone_input, undone_outcome, written_fault};

const NOLOAD: u8 = 2;

/// What zero bytes part; a zero byte at the end parts nothing.
fn split(row: &[u8]) -> Vec<&[u8]> {
    let mut parts: Vec<&[u8]> = row.split(|&b| b == 0).collect();
    if parts.last().map_or(false, |last| last.is_empty()) {
        parts.pop();
    }
    parts
}

fn number(bytes: &[u8]) -> u64 {
    bytes.iter().rev().fold(0, |sum, &b| sum * 256 + u64::from(b))
}

/// The name of the section with this header, taken off byte by byte.
fn name(file: &[u8], header: &[u8]) -> Option<Vec<u8>> {
    let mut field = header[..8].to_vec();
    let in_table = field[..4] == [0; 4] && field[4..] != [0; 4];
    if !in_table {
        field.push(0);
        return field.split(|&b| b == 0).next().map(<[u8]>::to_vec);
    }
    let table = number(&file[8..12]) + 18 * number(&file[12..16]);
    let mut rest = file.iter().copied().skip(table as usize);
    let size: Vec<u8> = rest.by_ref().take(4).collect();
    let before = number(&field[4..]).checked_sub(4)?;
    let names = number(&size).checked_sub(4)?;
    if size.len() < 4 {
        return None;
    }
    let mut found = Vec::new();
    for byte in rest.take(names as usize).skip(before as usize) {
        if byte == 0 {
            return Some(found);
        }
        found.push(byte);
    }
    None
}

/// Whether the section with this header is kept if no pattern takes it, by its flags
/// one at a time; none above 8000h counts.
fn kept(header: &[u8]) -> bool {
    let flags = number(&header[40..44]);
    let set: Vec<u64> = (0..16).map(|bit| 1 << bit).filter(|flag| flags / flag % 2 == 1).collect();
    let has = |some: &[u64]| set.iter().any(|flag| some.contains(flag));
    let (size, raw) = (number(&header[16..20]), number(&header[20..24]));
    if size == 0 || has(&[0x1, 0x2, 0x10]) {
        return false;
    }
    // It has a type that is loaded; or it has none, and the file has bytes for it.
    has(&[0x20, 0x40, 0x8000]) || raw > 0 && !has(&[0x4, 0x8, 0x80])
}

/// The file with each section that a pattern takes marked; where a name cannot be
/// read, that section and all behind it are, and this is told.
fn marked(file: &[u8], patterns: &[&[u8]]) -> (Vec<u8>, bool) {
    let mut marked = file.to_vec();
    let mut unread = false;
    let (count, first) = match file.get(..22) {
        Some(head) => (number(&head[2..4]) as usize, 22 + number(&head[16..18]) as usize),
        None => return (marked, false),
    };
    for i in 0..count.min(256) {
        let at = first + 48 * i;
        let header = match file.get(at..at + 48) {
            Some(header) => header,
            None => break,
        };
        let name = name(file, header);
        unread = unread || kept(header) && name.is_none();
        let taken = name.map_or(false, |name| patterns.iter().any(|p| by_places(p, &name)));
        if unread || taken {
            marked[at + 40] |= NOLOAD;
        }
    }
    (marked, unread)
}

/// With the same patterns a conversion checks, and loads as the file does.
fn round_trip_fault(case: &Case, own: &Own) -> Option<String> {
    let (file, row) = (&case.file.bytes, &case.row.bytes);
    let (length, _) = measure(file, row).ok()?;
    let mut image = vec![0; length as usize];
    convert(file, &mut image, row).ok()?;
    if check(file, &image, row).is_err() {
        return Some("with the same patterns the check refuses the conversion".to_string());
    }
    if case.call != Call::LoadCoffWith {
        return None;
    }
    let mut window = own.before.clone();
    let loaded = load_image(&image, case.number, &mut window);
    (loaded.is_err() || window != own.after).then(|| "the image made with the same patterns loads otherwise".to_string())
}

pub fn with_fault(case: &Case, own: &Own) -> Option<String> {
    let row = case.row.whole();
    let patterns = split(&row);
    let refused = patterns.len() > 16 || patterns.iter().any(|p| p.is_empty() || p.len() > 64);
    if refused || own.code == 17 {
        return (!refused || own.code != 17).then(|| "rule 17".to_string());
    }
    if case.call.has_order() {
        let fault = rule_33(case, own);
        if fault.is_some() || own.code == 33 {
            return fault;
        }
    }
    let file = case.file.whole();
    let (marked, unread) = if patterns.is_empty() { (file.to_vec(), false) } else { marked(&file, &patterns) };
    let plain = Case {
        call: case.call.plain(),
        file: Input::of(marked),
        image: undone_input(case),
        row: Input::default(),
        order: 0,
        expect: None,
        ..case.clone()
    };
    let without = answer(&plain);
    if unread && !matches!(without.code, 1..=12 | 28) {
        return (own.code != 16).then(|| "rule 16".to_string());
    }
    if without.outcome != undone_outcome(case, own) {
        return Some(format!("with the sections marked, code {} index {}", without.code, without.index));
    }
    let fault = naive::fault(&plain, &without);
    if fault.is_some() {
        return fault;
    }
    let fault = match (case.call, own.code) {
        (Call::ConvertWith, 0) => written_fault(case, own, &read_coff(&plain.file.bytes).ok()?.program, &file),
        (Call::CheckWith, 0 | 40 | 41) => read_fault(case, &plain),
        _ => None,
    };
    if fault.is_some() || own.code != 0 {
        return fault;
    }
    round_trip_fault(case, own)
}

pub fn takes_fault(case: &Case, own: &Own) -> Option<String> {
    let (pattern, name) = (&case.row.bytes, &case.file.bytes);
    if !(1..=64).contains(&pattern.len()) {
        return (own.outcome.packed != 0).then(|| "a pattern that is none takes a name".to_string());
    }
    let mut ways = vec![("two pointers", by_two_pointers(pattern, name)), ("all places", by_places(pattern, name))];
    if is_short(pattern, name) {
        ways.push(("the definition", by_definition(pattern, name)));
    }
    let told = own.outcome.packed == 1;
    let other = ways.into_iter().find(|way| way.1 != told);
    other.map(|(way, taken)| format!("by {way} {taken}"))
}
