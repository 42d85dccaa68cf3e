//! Small sound files and images with each single byte changed, and ended at
//! each place.

use crate::bench;
use crate::calls::{Call, Case};
use crate::gen_file;
use crate::gen_image;
use crate::image::image_of;
use crate::coff::read_coff;
use crate::listing::text_of;
use crate::rng::Rng;
use crate::walk::{FIRST_PLACE, STEP};

/// Other values for a byte.
fn others(byte: u8) -> Vec<u8> {
    let mut values = vec![
        0,
        0xff,
        byte ^ 0x01,
        byte ^ 0x02,
        byte ^ 0x80,
        byte ^ 0x20,
        byte.wrapping_add(1),
        byte.wrapping_sub(1),
    ];
    values.sort();
    values.dedup();
    values.retain(|v| *v != byte);
    values
}

/// One way in which bytes are not as they were.
pub enum Form {
    EndsAt(usize),
    ByteIs(usize, u8),
}

impl Form {
    pub fn of(&self, bytes: &[u8]) -> Vec<u8> {
        match *self {
            Form::EndsAt(at) => bytes[..at].to_vec(),
            Form::ByteIs(at, value) => {
                let mut changed = bytes.to_vec();
                changed[at] = value;
                changed
            }
        }
    }

    pub fn what(&self) -> String {
        match self {
            Form::EndsAt(at) => format!("ends at {at}"),
            Form::ByteIs(at, value) => format!("byte {at} is {value:02x}"),
        }
    }
}

/// Each changed and each shortened form.
pub fn forms(bytes: &[u8]) -> Vec<Form> {
    let mut all = Vec::new();
    for (at, &byte) in bytes.iter().enumerate() {
        all.push(Form::EndsAt(at));
        all.extend(others(byte).into_iter().map(|value| Form::ByteIs(at, value)));
    }
    all
}

/// Window around the kept sections of a sound file.
fn window(file: &[u8]) -> (u64, u64) {
    let blocks = read_coff(file).map(|c| c.program.blocks).unwrap_or_default();
    let low = blocks.iter().map(|b| b.load).min().unwrap_or(0);
    let high = blocks.iter().map(|b| b.load_end()).max().unwrap_or(0);
    (low, (high - low).min(4096))
}

/// All calls on the forms of a sound file.
pub fn of_file(name: &str, file: &[u8], all: &mut Vec<Case>) {
    let coff = read_coff(file).expect("a sound file");
    let image = image_of(&coff.program, file);
    let text = text_of(&coff);
    let (base, length) = window(file);
    for form in forms(file) {
        let what = format!("{name} {}", form.what());
        let form = form.of(file);
        all.push(Case::new(Call::Convert, &what).file(&form).lent(image.len() as u64));
        all.push(Case::new(Call::List, &what).file(&form).lent(text.len() as u64));
        all.push(Case::new(Call::LoadCoff, &what).file(&form).number(base).lent(length));
        all.push(Case::new(Call::Check, &what).file(&form).image(&image));
        all.push(Case::new(Call::Measure, &what).file(&form));
    }
}

/// All calls on the forms of an image; the file is one that it was made from.
pub fn of_image(name: &str, image: &[u8], file: &[u8], all: &mut Vec<Case>) {
    let (base, length) = window(file);
    for form in forms(image) {
        let what = format!("{name} {}", form.what());
        let form = form.of(image);
        all.push(Case::new(Call::Read, &what).image(&form));
        all.push(Case::new(Call::Block, &what).image(&form).number(0));
        all.push(Case::new(Call::LoadImage, &what).image(&form).number(base).lent(length));
        all.push(Case::new(Call::Check, &what).file(file).image(&form));
        all.push(Case::new(Call::BlockAt, &what).image(&form).number(FIRST_PLACE));
        all.push(Case::new(Call::Walk, &what).image(&form).lent(4 * STEP));
    }
}

/// Fills and places that differ from case to case.
pub fn spread(rng: &mut Rng, cases: &mut [Case]) {
    for case in cases {
        case.fill = rng.below(60_000) as u32;
        case.place = rng.below(16) as u8;
    }
}

pub fn cases(seed: u64) -> Vec<Case> {
    let mut rng = Rng::new(seed, 77);
    let rng = &mut rng;
    let mut all = Vec::new();
    of_file("A", &bench::a(), &mut all);
    of_file("A without a flag", &bench::a_as(0, 5, 70), &mut all);
    of_image("P1", &bench::P1, &bench::a(), &mut all);
    for plan in [vec![Some(3), None, Some(5)], vec![Some(1), Some(8)], vec![Some(4), Some(2), Some(9)]] {
        let mut made = gen_file::sound_of(rng, &plan);
        // Close together, so that one changed byte makes them meet.
        let mut load = 0x8000_0400;
        for &i in made.kept.iter().rev() {
            made.file.sections[i].load = load;
            load += made.file.sections[i].size;
        }
        let file = made.file.bytes();
        let image = made.image().bytes();
        of_file("a file", &file, &mut all);
        of_image("its image", &image, &file, &mut all);
    }
    // Every place where an image can end, with more blocks.
    let image = gen_image::sound_of(rng, &[1, 2, 3, 4, 5, 6]).bytes();
    for end in 0..=image.len() {
        all.push(Case::new(Call::Read, "six blocks, ended").image(&image[..end]));
        all.push(Case::new(Call::LoadImage, "six blocks, ended").image(&image[..end]).lent(100));
    }
    spread(rng, &mut all);
    all
}
