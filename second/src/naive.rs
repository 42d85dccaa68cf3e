//! The same answers by other means: one address at a time. Too slow for large
//! inputs; on small ones it guards the faster forms of this program.

use std::collections::{BTreeMap, HashSet};

use crate::answer::{pack_convert, pack_list, pack_load};
use crate::calls::{Call, Case, Own};
use crate::check::check;
use crate::coff::read_coff;
use crate::fields::{u16_at, u32_at};
use crate::image::{convert, image_length, read_image};
use crate::lines;
use crate::listing::{list, TEXT_ROOM};
use crate::loader::load_image;
use crate::make::pad;
use crate::naive_names::{takes_fault, with_fault};
use crate::naive_order::order_fault;
use crate::naive_place::{at_fault, walk_fault};
use crate::program::{Block, Program};

/// Address to byte and run address.
type Placement = BTreeMap<u64, (u8, u64)>;

fn placement(program: &Program, source: &[u8]) -> Placement {
    let mut map = BTreeMap::new();
    for block in &program.blocks {
        for (k, &byte) in block.bytes(source).iter().enumerate() {
            let old = map.insert(block.load + k as u64, (byte, block.run + k as u64));
            assert!(old.is_none(), "two blocks at one address");
        }
    }
    map
}

/// The first block one of whose addresses an earlier block has taken.
fn first_on_a_taken_address(blocks: &[Block]) -> Option<usize> {
    let mut taken = HashSet::new();
    for block in blocks {
        for address in block.load..block.load_end() {
            if !taken.insert(address) {
                return Some(block.index);
            }
        }
    }
    None
}

/// Few enough addresses to go through one by one. Sections that share raw data
/// can have many in a short file.
fn few(blocks: &[Block]) -> bool {
    blocks.iter().map(|b| b.size).sum::<u64>() <= 20_000
}

/// Kept sections of a file whose rules 1 to 12 hold, without asking them.
fn sections(file: &[u8]) -> Vec<Block> {
    let first = 22 + u16_at(file, 16) as usize;
    let mut kept = Vec::new();
    for index in 0..u16_at(file, 2) as usize {
        let h = &file[first + 48 * index..first + 48 * (index + 1)];
        let size = u64::from(u32_at(h, 16));
        let raw = u32_at(h, 20) as usize;
        // Where none of the nine flags that count is set, the raw data offset decides.
        let wanted = match u32_at(h, 40) & 0x80ff {
            0 => raw != 0,
            set => set & 0x13 == 0 && set & 0x8060 != 0,
        };
        if size != 0 && wanted {
            kept.push(Block { index, run: u64::from(u32_at(h, 8)), load: u64::from(u32_at(h, 12)), size, raw });
        }
    }
    kept
}

/// Blocks of an image whose rules 20 to 26 hold, without asking them.
fn blocks(image: &[u8]) -> Vec<Block> {
    let mut all = Vec::new();
    let mut at = 4;
    while u32_at(image, at) != 0 {
        let size = u32_at(image, at) as usize;
        all.push(Block {
            index: all.len(),
            size: size as u64,
            load: u64::from(u32_at(image, at + 4)),
            run: u64::from(u32_at(image, at + 8)),
            raw: at + 12,
        });
        at += 12 + (size + 3) / 4 * 4;
    }
    all
}

fn meet_fault(own: &Own, blocks: &[Block], code: u8) -> Option<String> {
    if !few(blocks) {
        return None;
    }
    let naive = first_on_a_taken_address(blocks).map(|i| i as u64);
    let told = (own.code == code).then_some(own.index);
    (naive != told).then(|| format!("rule {code}: by addresses {naive:?}, by ranges {told:?}"))
}

/// A conversion that was accepted: its image reads back, checks and loads as
/// the file does.
fn convert_fault(case: &Case, own: &Own) -> Option<String> {
    let file = &case.file.bytes;
    let length = (own.outcome.packed >> 8 & 0xffff_ffff) as usize;
    let image = &own.after[..length];
    if own.after[length..] != own.before[length..] {
        return Some("bytes after the image changed".to_string());
    }
    let program = read_coff(file).ok()?.program;
    let back = match read_image(image) {
        Ok(back) => back,
        Err(_) => return Some("the image is not readable".to_string()),
    };
    if back.entry != program.entry || back.blocks.len() != program.blocks.len() {
        return Some("the image reads back otherwise".to_string());
    }
    for (a, b) in program.blocks.iter().zip(&back.blocks) {
        if (a.load, a.run, a.bytes(file)) != (b.load, b.run, b.bytes(image)) {
            return Some("a block reads back otherwise".to_string());
        }
    }
    if check(file, image, &[]).is_err() {
        return Some("the check refuses the conversion".to_string());
    }
    let mut short = vec![0xee; length - 1];
    let refused = matches!(convert(file, &mut short, &[]), Err(r) if r.code == 15);
    (!refused || short.iter().any(|&b| b != 0xee)).then(|| "output one byte shorter".to_string())
}

/// A file that was measured or converted: the figures are sums over its headers.
fn measure_fault(case: &Case, own: &Own) -> Option<String> {
    let kept = sections(&case.file.bytes);
    let length = 8 + kept.iter().map(|b| 12 + b.size + pad(b.size as usize) as u64).sum::<u64>();
    let summed = pack_convert(length, kept.len() as u64);
    (own.outcome.packed != summed).then(|| format!("summed {summed:x}"))
}

/// A window that was written: byte by byte from the placement.
fn load_fault(own: &Own, program: &Program, source: &[u8], base: u64) -> Option<String> {
    let map = placement(program, source);
    if own.outcome.packed != pack_load(map.len() as u64) {
        return Some("the number placed is not the number of addresses".to_string());
    }
    for (k, (&before, &after)) in own.before.iter().zip(&own.after).enumerate() {
        let wanted = map.get(&(base + k as u64)).map_or(before, |b| b.0);
        if after != wanted {
            return Some(format!("byte {k} of the window is {after:02x}, not {wanted:02x}"));
        }
    }
    None
}

/// A load from a file does as the load of its image does.
fn coff_and_image_fault(case: &Case, own: &Own) -> Option<String> {
    let file = &case.file.bytes;
    let program = read_coff(file).ok()?.program;
    let mut image = vec![0; image_length(&program) as usize];
    convert(file, &mut image, &[]).ok()?;
    let mut window = own.before.clone();
    match load_image(&image, case.number, &mut window) {
        Ok(placed) if own.code == 0 && pack_load(placed) == own.outcome.packed && window == own.after => None,
        Err(r) if r.code == own.code && r.code == 28 => None,
        Err(r) if r.code == own.code && program.blocks[r.index as usize].index as u64 == own.index => None,
        _ => Some("the image of the file loads otherwise".to_string()),
    }
}

fn check_fault(case: &Case, own: &Own) -> Option<String> {
    if !matches!(own.code, 0 | 40 | 41) {
        return None;
    }
    let (file, image) = (&case.file.bytes, &case.image.bytes);
    let (a, b) = (read_coff(file).ok()?.program, read_image(image).ok()?);
    if !few(&a.blocks) || !few(&b.blocks) {
        return None;
    }
    let naive = if a.entry != b.entry {
        40
    } else if placement(&a, file) != placement(&b, image) {
        41
    } else {
        0
    };
    (naive != own.code).then(|| format!("by addresses {naive}, by blocks {}", own.code))
}

/// A listing that was accepted: read back it says what the headers hold, and it
/// does not fit into a byte less.
fn list_fault(case: &Case, own: &Own) -> Option<String> {
    let file = &case.file.bytes;
    let length = (own.outcome.packed >> 8) as usize;
    if length > own.after.len() || own.outcome.packed != pack_list(length as u64) {
        return Some("the length is not that of a text".to_string());
    }
    if own.after[length..] != own.before[length..] {
        return Some("bytes after the text changed".to_string());
    }
    let kept = sections(file);
    let entry = if u16_at(file, 16) == 0 { 0 } else { u32_at(file, 22 + 16) };
    let head = vec![u64::from(u16_at(file, 2)), kept.len() as u64, u64::from(entry)];
    let mut rows = vec![("coff sections # kept # entry @", head)];
    let row = |b: &Block| ("# load @ run @ size #", vec![b.index as u64, b.load, b.run, b.size]);
    rows.extend(kept.iter().map(row));
    let image: u64 = kept.iter().map(|b| 12 + (b.size + 3) / 4 * 4).sum();
    rows.push(("image #", vec![8 + image]));
    let text = &own.after[..length];
    if !lines::says(text, &rows) {
        return Some(format!("listed {:?}", String::from_utf8_lossy(text)));
    }
    let mut short = vec![0xee; length - 1];
    let refused = matches!(list(file, &mut short), Err(r) if r.code == 15);
    (!refused || short.iter().any(|&b| b != 0xee)).then(|| "room one byte shorter".to_string())
}

/// A listing without room: with enough of it the text is longer.
fn room_fault(case: &Case) -> Option<String> {
    match list(&case.file.bytes, &mut vec![0; TEXT_ROOM as usize]) {
        Ok(length) if length > case.lent => None,
        _ => Some("the text would have had room".to_string()),
    }
}

/// What is wrong with this program's own answer, if anything is.
pub fn fault(case: &Case, own: &Own) -> Option<String> {
    if let Some(fault) = case.expect.and_then(|expect| expect.fault(own)) {
        return Some(fault);
    }
    // What a walk met before a refusal stands in its buffer.
    if own.code != 0 && case.call.plain() != Call::Walk && own.before != own.after {
        return Some("a refusal changed lent bytes".to_string());
    }
    if case.is_big() {
        return None;
    }
    if case.call.has_patterns() {
        return with_fault(case, own);
    }
    if case.call.has_order() {
        return order_fault(case, own);
    }
    let (file, image) = (&case.file.bytes, &case.image.bytes);
    let told = match (case.call, own.code) {
        (Call::Convert | Call::List | Call::LoadCoff | Call::Measure, 0 | 13 | 15 | 29) => meet_fault(own, &sections(file), 13),
        (Call::Read | Call::Block | Call::LoadImage, 0 | 27 | 29 | 30) => meet_fault(own, &blocks(image), 27),
        (Call::Check, 0 | 27 | 40 | 41) => meet_fault(own, &blocks(image), 27),
        _ => None,
    };
    if told.is_some() {
        return told;
    }
    match (case.call, own.code) {
        (Call::Convert, 0) => convert_fault(case, own).or_else(|| measure_fault(case, own)),
        (Call::LoadImage, 0) => load_fault(own, &read_image(image).ok()?, image, case.number),
        (Call::LoadCoff, 0) => load_fault(own, &read_coff(file).ok()?.program, file, case.number)
            .or_else(|| coff_and_image_fault(case, own)),
        (Call::LoadCoff, 29) => coff_and_image_fault(case, own),
        (Call::Check, _) => check_fault(case, own),
        (Call::List, 0) => list_fault(case, own),
        (Call::List, 15) => room_fault(case),
        (Call::Measure, 0) => measure_fault(case, own),
        (Call::BlockAt, _) => at_fault(case, own),
        (Call::Walk, _) => walk_fault(case, own),
        (Call::Takes, _) => takes_fault(case, own),
        _ => None,
    }
}

/// That the answers to many cases of a maker are what their makers expect, and have no fault.
#[cfg(test)]
pub fn assert_agreed(make: fn(u64, u64) -> Case) {
    for number in 0..5000 {
        let case = make(7, number);
        assert_eq!(fault(&case, &crate::calls::answer(&case)), None, "case {number}");
    }
}
