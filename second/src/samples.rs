//! Files from a real assembler and linker, and what can be made of them.

use std::path::Path;

use crate::calls::{Call, Case};
use crate::coff::read_coff;
use crate::every::{forms, spread};
use crate::gen_check::{change, join, rearrange};
use crate::given::mutate;
use crate::image::image_length;
use crate::listing::{text_of, TEXT_ROOM};
use crate::make::{Image, Piece};
use crate::rng::Rng;
use crate::walk::STEP;

pub struct Sample {
    pub name: String,
    pub bytes: Vec<u8>,
    /// The code that conversion is known to answer, if the file is one of ours.
    pub code: Option<u8>,
}

macro_rules! sample {
    ($name:literal, $code:literal) => {
        ($name, include_bytes!(concat!("../samples/", $name)).as_slice(), $code)
    };
}

const SAMPLES: [(&str, &[u8], u8); 10] = [
    sample!("c6x.out", 0),
    sample!("c6x-ld.out", 0),
    sample!("c6x-attributes.out", 13),
    sample!("c4x-patched.out", 0),
    sample!("c4x-relocatable.out", 6),
    sample!("edges.out", 0),
    sample!("many-256.out", 0),
    sample!("long-name.out", 0),
    sample!("c6x-initialised.out", 0),
    sample!("c6x-plain.out", 0),
];

/// The samples in the program, or those of a folder.
pub fn samples(folder: Option<&Path>) -> Result<Vec<Sample>, String> {
    let known = |name: &str| SAMPLES.iter().find(|s| s.0 == name).map(|s| s.2);
    let folder = match folder {
        Some(folder) => folder,
        None => {
            let of = |s: &(&str, &[u8], u8)| Sample { name: s.0.to_string(), bytes: s.1.to_vec(), code: Some(s.2) };
            return Ok(SAMPLES.iter().map(of).collect());
        }
    };
    let mut all = Vec::new();
    let told = |e: std::io::Error| format!("{}: {e}", folder.display());
    for entry in std::fs::read_dir(folder).map_err(told)? {
        let path = entry.map_err(told)?.path();
        if path.extension() == Some("out".as_ref()) {
            let name = path.file_name().unwrap().to_string_lossy().into_owned();
            let bytes = std::fs::read(&path).map_err(told)?;
            let code = known(&name);
            all.push(Sample { name, bytes, code });
        }
    }
    all.sort_by(|a, b| a.name.cmp(&b.name));
    if all.is_empty() {
        return Err(format!("{}: no files ending in .out", folder.display()));
    }
    Ok(all)
}

/// Calls that need no sound file.
fn as_it_stands(sample: &Sample, rng: &mut Rng, all: &mut Vec<Case>) {
    let name = &sample.name;
    let expect = |case: Case| match sample.code {
        Some(code) => case.expect(code),
        None => case,
    };
    all.push(expect(Case::new(Call::Convert, name).file(&sample.bytes).lent(20_000)));
    all.push(expect(Case::new(Call::List, name).file(&sample.bytes).lent(TEXT_ROOM)));
    all.push(expect(Case::new(Call::Measure, name).file(&sample.bytes)));
    all.push(Case::new(Call::LoadCoff, name).file(&sample.bytes).number(0).lent(70_000));
    all.push(Case::new(Call::Read, &format!("{name} taken for an image")).image(&sample.bytes));

    // Changed bytes and early ends: all of a small file, some of a large one.
    let large = sample.bytes.len() > 2000;
    for form in forms(&sample.bytes) {
        if rng.one_in(if large { 200 } else { 3 }) {
            let what = format!("{name} {}", form.what());
            let form = form.of(&sample.bytes);
            all.push(match rng.below(4) {
                0 => Case::new(Call::Convert, &what).file(&form).lent(20_000),
                1 => Case::new(Call::List, &what).file(&form).lent(TEXT_ROOM),
                2 => Case::new(Call::Measure, &what).file(&form),
                _ => Case::new(Call::LoadCoff, &what).file(&form).number(0x400).lent(4096),
            });
        }
    }
    for _ in 0..200 {
        let mut bytes = sample.bytes.clone();
        mutate(rng, &mut bytes);
        all.push(Case::new(Call::Convert, &format!("{name} changed")).file(&bytes).lent(20_000));
    }
}

/// Calls around the conversion of a sound sample.
fn converted(sample: &Sample, rng: &mut Rng, all: &mut Vec<Case>) {
    let coff = match read_coff(&sample.bytes) {
        Ok(coff) => coff,
        Err(_) => return,
    };
    let (name, file, program) = (&sample.name, &sample.bytes, coff.program);
    let length = image_length(&program);
    for (lent, code) in [(length, 0), (length - 1, 15), (length + 5, 0), (0, 15)] {
        all.push(Case::new(Call::Convert, name).file(file).lent(lent).expect(code));
    }
    let piece = |b: &crate::program::Block| Piece::new(b.load as u32, b.run as u32, b.bytes(file));
    let pieces: Vec<Piece> = program.blocks.iter().map(piece).collect();
    let image = Image::new(program.entry, pieces.clone());
    let places: Vec<u64> = (0..=pieces.len()).map(|i| image.offset(i) as u64).collect();
    let image = image.bytes();
    // Each block by its number, by its place, and in a walk.
    for (number, place) in places.into_iter().enumerate() {
        all.push(Case::new(Call::Block, name).image(&image).number(number as u64));
        all.push(Case::new(Call::BlockAt, name).image(&image).number(place).expect_at(0, 0));
    }
    let room = STEP * pieces.len() as u64;
    all.push(Case::new(Call::Walk, name).image(&image).lent(room).expect_at(0, 0));
    // A window for each block alone, and around the next ones.
    for b in &program.blocks {
        for more in [0, 1, 64, 4096] {
            let base = b.load - more.min(b.load);
            let length = (b.load_end() + more).min(1 << 32) - base;
            all.push(Case::new(Call::LoadImage, name).image(&image).number(base).lent(length));
            all.push(Case::new(Call::LoadCoff, name).file(file).number(base).lent(length));
        }
    }
    let check = |what: &str, entry: u32, blocks: &[Piece], code: u8| {
        let image = Image::new(entry, blocks.to_vec()).bytes();
        let case = Case::new(Call::Check, &format!("{name}: {what}"));
        case.file(file).image(&image).expect_at(code, 0)
    };
    let mut joined = pieces.clone();
    join(&mut joined);
    all.push(check("joined", program.entry, &joined, 0));
    all.push(check("another entry", program.entry ^ 4, &pieces, 40));
    for _ in 0..60 {
        let mut blocks = pieces.clone();
        rearrange(rng, &mut blocks);
        all.push(check("rearranged", program.entry, &blocks, 0));
        let image = Image::new(program.entry, blocks.clone()).bytes();
        all.push(Case::new(Call::Read, name).image(&image).expect_at(0, 0));
        let room = STEP * blocks.len() as u64;
        all.push(Case::new(Call::Walk, name).image(&image).lent(room).expect_at(0, 0));
        let what = change(rng, &mut blocks);
        all.push(check(what, program.entry, &blocks, 41));
    }
    for _ in 0..200 {
        let mut bytes = image.clone();
        mutate(rng, &mut bytes);
        let what = format!("image of {name} changed");
        all.push(Case::new(Call::Read, &what).image(&bytes));
        all.push(Case::new(Call::Check, &what).file(file).image(&bytes));
        all.push(Case::new(Call::Walk, &what).image(&bytes).lent(room));
    }
}

/// The text of a sample in rooms around its length; of one that is refused, the
/// refusal in any room.
fn listed(sample: &Sample, all: &mut Vec<Case>) {
    let (length, code) = match read_coff(&sample.bytes) {
        Ok(coff) => (text_of(&coff).len() as u64, 0),
        Err(r) => (100, r.code),
    };
    for room in [length, length - 1, length + 5, 0] {
        let code = if code == 0 && room < length { 15 } else { code };
        all.push(Case::new(Call::List, &sample.name).file(&sample.bytes).lent(room).expect(code));
    }
}

pub fn cases(seed: u64, samples: &[Sample]) -> Vec<Case> {
    let mut rng = Rng::new(seed, 78);
    let mut all = Vec::new();
    for sample in samples {
        as_it_stands(sample, &mut rng, &mut all);
        converted(sample, &mut rng, &mut all);
    }
    spread(&mut rng, &mut all);
    // Behind the others, which so keep their numbers, places and fills.
    let mut last = Vec::new();
    for sample in samples {
        listed(sample, &mut last);
    }
    spread(&mut rng, &mut last);
    all.extend(last);
    all
}
