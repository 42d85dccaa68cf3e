//! Names and patterns at every boundary: names in headers and in the string
//! table, tables cut in every place, rows of patterns, sections left out.

mod left_out;
mod long;
mod plain;
mod rows;
mod short;
pub mod stays;
mod tables;
mod takes;

use crate::calls::{Call, Case};
use crate::edges::Maker;
use crate::every::spread;
use crate::fields::put_u32;
use crate::image::convert;
use crate::make::{File, Section};
use crate::rng::Rng;

/// A file with two sections. The first has this name field, and behind it a run
/// address of letters, so that a name read on beyond it is another; the second is
/// called `.rest` and shows what remains.
fn two_sections(name: [u8; 8]) -> File {
    let mut file = File::empty();
    let raw = 22 + 2 * 48;
    let run = u32::from_le_bytes(*b"ij\0k");
    file.sections.push(Section { name, run, load: 0x400, size: 5, raw, flags: 0x20, ..Section::default() });
    file.sections.push(Section { name: *b".rest\0\0\0", load: 0x405, size: 3, raw: raw + 5, flags: 0x40, ..Section::default() });
    file.body = vec![0x11, 0x22, 0x33, 0x44, 0x55, 0x66, 0x77, 0x88];
    file
}

/// A name field that is an offset into the string table.
fn at_offset(offset: u32) -> [u8; 8] {
    let mut field = [0; 8];
    put_u32(&mut field, 4, offset);
    field
}

/// The calls with patterns on a file. The image to check is what this program
/// makes of the file with the same patterns: then the check says "same".
fn calls(what: &str, file: &[u8], row: &[u8], all: &mut Vec<Case>) {
    let mut room = vec![0; 4096];
    let image = match convert(file, &mut room, row) {
        Ok((length, _)) => &room[..length as usize],
        Err(_) => &[0; 8],
    };
    all.push(Case::new(Call::MeasureWith, what).file(file).row(row));
    all.push(Case::new(Call::ConvertWith, what).file(file).row(row).lent(image.len() as u64 + 3));
    all.push(Case::new(Call::LoadCoffWith, what).file(file).row(row).number(0x400).lent(8));
    all.push(Case::new(Call::CheckWith, what).file(file).row(row).image(image));
}

/// The same, all of them answering this code and index.
fn calls_expect(what: &str, file: &[u8], row: &[u8], code: u8, index: u64, all: &mut Vec<Case>) {
    let from = all.len();
    calls(what, file, row, all);
    for case in &mut all[from..] {
        *case = case.clone().expect_at(code, index);
    }
}

pub fn cases(seed: u64) -> Vec<Case> {
    let mut rng = Rng::new(seed, 79);
    let mut all = Vec::new();
    short::cases(&mut all);
    tables::cases(&mut all);
    rows::cases(&mut all);
    left_out::cases(&mut all);
    plain::cases(&mut all);
    spread(&mut rng, &mut all);
    for case in &mut all {
        case.place |= (rng.below(2) as u8) << 4;
    }
    all
}

pub fn taking(seed: u64) -> Vec<Case> {
    let mut rng = Rng::new(seed, 80);
    let mut all = Vec::new();
    takes::cases(&mut all);
    spread(&mut rng, &mut all);
    for case in &mut all {
        case.place |= (rng.below(2) as u8) << 4;
    }
    all
}

pub fn makers() -> Vec<Maker> {
    let mut all = Vec::new();
    rows::long(&mut all);
    long::makers(&mut all);
    all
}
